// Runs the jobs of the module in a worker, one after another. The first message has the compressed module, each later
// one a job.
import { CoverageModule, Status, emptyResult } from "./module.js";

async function decompress(bytes) {
  const stream = new Blob([bytes]).stream().pipeThrough(new DecompressionStream("gzip"));
  return new Uint8Array(await new Response(stream).arrayBuffer());
}

function runJob(coverageModule, { job, numbers, text }) {
  const begin = performance.now();
  try {
    const result = coverageModule.call(job, numbers, text);
    return { ...result, milliseconds: performance.now() - begin };
  } catch (error) {
    return { ...emptyResult(Status.TRAPPED), error: String(error), milliseconds: performance.now() - begin };
  }
}

let coverageModule = null;

self.onmessage = async ({ data }) => {
  if (coverageModule) {
    const result = runJob(coverageModule, data);
    self.postMessage({ id: data.id, ...result }, [result.output.buffer]);
    return;
  }
  try {
    coverageModule = await CoverageModule.compile(await decompress(data.compressed));
    self.postMessage({ id: data.id, ...emptyResult(Status.DONE) });
  } catch (error) {
    self.postMessage({ id: data.id, ...emptyResult(Status.TRAPPED), error: String(error) });
  }
};
