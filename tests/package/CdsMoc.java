import cds.moc.HealpixMoc;
import java.io.FileInputStream;
import java.io.InputStream;

/** CdsMoc [FROM TO].. - converts files of coverages with cds.moc, by the suffixes .fits and .moc (ASCII), and prints their MOC orders. */
public class CdsMoc {
  static int format(String path) {
    return path.endsWith(".fits") ? HealpixMoc.FITS : HealpixMoc.ASCII;
  }

  public static void main(String[] paths) throws Exception {
    for (int i = 0; i < paths.length; i += 2) {
      HealpixMoc moc = new HealpixMoc();
      try (InputStream file = new FileInputStream(paths[i])) {
        moc.read(file, format(paths[i]));
      }
      moc.write(paths[i + 1], format(paths[i + 1]));
      System.out.println(moc.getMocOrder());
    }
  }
}
