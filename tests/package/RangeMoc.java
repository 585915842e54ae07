import cds.moc.Moc;
import cds.moc.SMoc;
import java.io.OutputStream;

/**
 * RangeMoc [FROM TO].. - converts files of coverages with the package cds.moc of Aladin, and prints their MOC orders. A file with the suffix
 * .fits is written as a table of ranges, and another one as ASCII.
 */
public class RangeMoc extends SMoc {
  /* cds.moc writes coverages of the sky only as NUNIQ numbers. These methods let it write the ranges, as it writes those of times. */

  @Override
  public int sizeOfCoding() {
    return Long.BYTES;
  }

  @Override
  public int getNbCoding() {
    return 2 * getNbRanges();
  }

  @Override
  protected int writeSpecificFitsProp(OutputStream out) throws Exception {
    String[][] keys = {{"TTYPE1", "RANGE"}, {"ORDERING", "RANGE"}, {"COORDSYS", "C"}, {"MOCDIM", "SPACE"},
                       {"MOCORD_S", Integer.toString(getMocOrder())}};
    int length = 0;
    for (String[] key : keys) {
      byte[] line = getFitsLine(key[0], key[1], "");
      out.write(line);
      length += line.length;
    }
    return length;
  }

  @Override
  protected int writeSpecificData(OutputStream out) throws Exception {
    return writeSpecificDataRange(out, Moc.RAW);
  }

  public static void main(String[] paths) throws Exception {
    for (int i = 0; i < paths.length; i += 2) {
      RangeMoc moc = new RangeMoc();
      moc.read(paths[i]);
      moc.write(paths[i + 1], paths[i + 1].endsWith(".fits") ? FITS : ASCII);
      System.out.println(moc.getMocOrder());
    }
  }
}
