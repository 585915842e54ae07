import cds.healpix.Healpix;
import cds.healpix.HealpixNested;
import cds.healpix.NeighbourList;
import cds.moc.HealpixMoc;
import cds.moc.MocCell;
import healpix.essentials.HealpixBase;
import healpix.essentials.Moc;
import healpix.essentials.MocStringIO;
import healpix.essentials.RangeSet;
import healpix.essentials.Scheme;
import java.io.ByteArrayInputStream;
import java.io.ByteArrayOutputStream;
import java.nio.charset.StandardCharsets;
import java.nio.file.Files;
import java.nio.file.Paths;
import java.util.Arrays;
import java.util.Locale;

/**
 * PeerJava PEER DIR OP [REPEATS]: one operation of the benchmark with cds (cds.moc 5.0 and cdshealpix 0.30.2) or essentials
 * (healpix.essentials 3.60). Prints: OP median first least checksum.
 *
 * OP is one of those of peer.cc: on sets, on numbers of cells, adds_only or adds. With cds besides: ascii_to_json (reading moc_a.txt from
 * memory and writing it into memory), cells_ascii and cells_json (its cells, one after another, into a string: faster than its own writers).
 */
public class PeerJava {
  interface Work {
    long once() throws Exception;
  }

  static byte[] file(String dir, String name) throws Exception {
    return Files.readAllBytes(Paths.get(dir, name));
  }

  static long[] addedCells(String dir) throws Exception {
    return Files.readAllLines(Paths.get(dir, "adds.txt")).stream().mapToLong(Long::parseLong).toArray();
  }

  // Numbers of cells of an order, at random: splitmix64 from 42.
  static long[] cells(int order, int count) {
    long state = 42, all = 12L << (2 * order);
    long[] cells = new long[count];
    for (int i = 0; i < count; i++) {
      long z = (state += 0x9E3779B97F4A7C15L);
      z = (z ^ (z >>> 30)) * 0xBF58476D1CE4E5B9L;
      z = (z ^ (z >>> 27)) * 0x94D049BB133111EBL;
      cells[i] = Long.remainderUnsigned(z ^ (z >>> 31), all);
    }
    return cells;
  }

  // Each peer has loops of its own: one over a function that is passed in took cdshealpix a seventh longer.

  // With cds.moc and cdshealpix.

  static long pixels(HealpixMoc m) {
    int order = m.getMaxOrder();
    return order < 0 ? 0 : m.getUsedArea() << (2 * (29 - order));
  }

  static HealpixMoc read(byte[] text) throws Exception {
    HealpixMoc m = new HealpixMoc();
    m.read(new ByteArrayInputStream(text), HealpixMoc.ASCII);
    return m;
  }

  static long write(HealpixMoc m, int form) throws Exception {
    ByteArrayOutputStream text = new ByteArrayOutputStream();
    m.write(text, form);
    return text.size();
  }

  static long add(long[] cells, boolean countEach) throws Exception {
    HealpixMoc m = new HealpixMoc();
    m.setCheckConsistencyFlag(true);
    long sum = 0;
    for (long cell : cells) {
      m.add(13, cell);
      if (countEach) sum += pixels(m);
    }
    return countEach ? sum : pixels(m);
  }

  static HealpixMoc degraded(HealpixMoc m, int order) throws Exception {
    HealpixMoc degraded = (HealpixMoc) m.clone();
    degraded.setMocOrder(order);
    return degraded;
  }

  // The cells come by rising order, and within an order by rising number.
  static long cellsJson(HealpixMoc m) {
    StringBuilder text = new StringBuilder("{");
    int order = -1;
    for (MocCell cell : m) {
      if (cell.order == order) {
        text.append(',');
      } else {
        text.append(order < 0 ? "\"" : "],\"").append(cell.order).append("\":[");
        order = cell.order;
      }
      text.append(cell.npix);
    }
    return text.append(order < 0 ? "}" : "]}").toString().length();
  }

  static void run(StringBuilder text, long first, long last) {
    text.append(first);
    if (last > first) text.append('-').append(last);
  }

  static long cellsAscii(HealpixMoc m) {
    StringBuilder text = new StringBuilder();
    int order = -1;
    long first = 0, last = 0;
    for (MocCell cell : m) {
      if (cell.order == order && cell.npix == last + 1) {
        last++;
        continue;
      }
      if (order >= 0) {
        run(text, first, last);
        text.append(' ');
      }
      if (cell.order != order) text.append(order = cell.order).append('/');
      first = last = cell.npix;
    }
    if (order >= 0) run(text, first, last);
    return text.toString().length();
  }

  static long toRing(HealpixNested order, long[] cells) {
    long sum = 0;
    for (long cell : cells) sum += order.toRing(cell);
    return sum;
  }

  static long toNest(HealpixNested order, long[] cells) {
    long sum = 0;
    for (long cell : cells) sum += order.toNested(cell);
    return sum;
  }

  static long touching(HealpixNested order, long[] cells) {
    long sum = 0;
    for (long cell : cells) {
      NeighbourList touching = order.neighbours(cell);
      for (int i = 0; i < touching.size(); i++) sum += touching.get(i);
    }
    return sum;
  }

  static Work cds(String dir, String op) throws Exception {
    if (op.matches("(ring|nest|near)\\d+")) {
      int depth = Integer.parseInt(op.substring(4));
      HealpixNested order = Healpix.getNested(depth);
      long[] cells = cells(depth, op.startsWith("near") ? 1_000_000 : 10_000_000);
      switch (op.substring(0, 4)) {
        case "ring": return () -> toRing(order, cells);
        case "nest": return () -> toNest(order, cells);
        default: return () -> touching(order, cells);
      }
    }
    if (op.startsWith("adds")) {
      long[] cells = addedCells(dir);
      return () -> add(cells, op.equals("adds"));
    }
    byte[] text = file(dir, "moc_a.txt");
    HealpixMoc a = read(text), b = read(file(dir, "moc_b.txt"));
    switch (op) {
      case "read_a": return () -> pixels(read(text));
      case "count": return () -> pixels(a);
      case "union": return () -> pixels(a.union(b));
      case "intersection": return () -> pixels(a.intersection(b));
      case "difference": return () -> pixels(a.subtraction(b));
      case "symmetric": return () -> pixels(a.difference(b));
      case "complement": return () -> pixels(a.complement());
      case "degrade10": return () -> pixels(degraded(a, 10));
      case "degrade13": return () -> pixels(degraded(a, 13));
      case "write_ascii": return () -> write(a, HealpixMoc.ASCII);
      case "write_json": return () -> write(a, HealpixMoc.JSON);
      case "cells_ascii": return () -> cellsAscii(a);
      case "cells_json": return () -> cellsJson(a);
      case "ascii_to_json": return () -> write(read(text), HealpixMoc.JSON);
      default: throw new IllegalArgumentException(op);
    }
  }

  // With healpix.essentials.

  static Moc parsed(byte[] text) {
    return MocStringIO.mocFromString(new String(text, StandardCharsets.US_ASCII));
  }

  static long addRanges(long[] cells, boolean countEach) {
    RangeSet set = new RangeSet();
    long sum = 0;
    for (long cell : cells) {
      set.add(cell << 32, (cell + 1) << 32);
      if (countEach) sum += set.nval();
    }
    return countEach ? sum : set.nval();
  }

  static long toRing(HealpixBase base, long[] cells) throws Exception {
    long sum = 0;
    for (long cell : cells) sum += base.nest2ring(cell);
    return sum;
  }

  static long toNest(HealpixBase base, long[] cells) throws Exception {
    long sum = 0;
    for (long cell : cells) sum += base.ring2nest(cell);
    return sum;
  }

  static long touching(HealpixBase base, long[] cells) throws Exception {
    long sum = 0;
    for (long cell : cells) for (long it : base.neighbours(cell)) if (it >= 0) sum += it;
    return sum;
  }

  static Work essentials(String dir, String op) throws Exception {
    if (op.matches("(ring|nest|near)\\d+")) {
      int depth = Integer.parseInt(op.substring(4));
      HealpixBase base = new HealpixBase(1L << depth, Scheme.NESTED);
      long[] cells = cells(depth, op.startsWith("near") ? 1_000_000 : 10_000_000);
      switch (op.substring(0, 4)) {
        case "ring": return () -> toRing(base, cells);
        case "nest": return () -> toNest(base, cells);
        default: return () -> touching(base, cells);
      }
    }
    if (op.startsWith("adds")) {
      long[] cells = addedCells(dir);
      return () -> addRanges(cells, op.equals("adds"));
    }
    byte[] text = file(dir, "moc_a.txt");
    Moc a = parsed(text), b = parsed(file(dir, "moc_b.txt"));
    switch (op) {
      case "read_a": return () -> parsed(text).getRangeSet().nval();
      case "count": return () -> a.getRangeSet().nval();
      case "union": return () -> a.union(b).getRangeSet().nval();
      case "intersection": return () -> a.intersection(b).getRangeSet().nval();
      case "difference": return () -> a.subtraction(b).getRangeSet().nval();
      case "symmetric": return () -> a.union(b).subtraction(a.intersection(b)).getRangeSet().nval();
      case "complement": return () -> a.complement().getRangeSet().nval();
      case "degrade10": return () -> a.degradedToOrder(10, true).getRangeSet().nval();
      case "degrade13": return () -> a.degradedToOrder(13, true).getRangeSet().nval();
      case "write_ascii": return () -> MocStringIO.mocToStringASCII(a).length();
      case "write_json": return () -> MocStringIO.mocToStringJSON(a).length();
      default: throw new IllegalArgumentException(op);
    }
  }

  public static void main(String[] args) throws Exception {
    String op = args[2];
    int repeats = args.length > 3 ? Integer.parseInt(args[3]) : 1;
    Work work = args[0].equals("essentials") ? essentials(args[1], op) : cds(args[1], op);
    double[] times = new double[repeats];
    long sum = 0;
    for (int i = 0; i < repeats; i++) {
      long start = System.nanoTime();
      sum = work.once();
      times[i] = (System.nanoTime() - start) / 1e9;
    }
    double first = times[0];
    Arrays.sort(times);
    System.out.printf(Locale.ROOT, "%s %.6f %.6f %.6f %s%n", op, times[repeats / 2], first, times[0], Long.toUnsignedString(sum));
  }
}
