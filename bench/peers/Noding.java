import java.io.IOException;
import java.io.StreamTokenizer;
import java.lang.management.ManagementFactory;
import java.util.ArrayList;
import java.util.Collection;
import java.util.HashSet;
import java.util.List;
import java.util.Set;
import org.locationtech.jts.geom.Coordinate;
import org.locationtech.jts.geom.LineSegment;
import org.locationtech.jts.geom.PrecisionModel;
import org.locationtech.jts.noding.NodedSegmentString;
import org.locationtech.jts.noding.SegmentString;
import org.locationtech.jts.noding.snapround.SnapRoundingNoder;

/**
 * Nodes segments on grid 1 by JTS. Reads four numbers of each segment, and tells the pieces, the processor seconds, the best of some
 * times, and the greatest memory in kilobytes.
 */
public final class Noding {
    public static void main(String[] words) throws IOException {
        int times = words.length > 0 ? Integer.parseInt(words[0]) : 1;
        List<Coordinate[]> segments = read();
        double best = Double.MAX_VALUE;
        Collection<?> drawn = List.of();
        for (int i = 0; i < times; i++) {
            long before = processorTime();
            drawn = noded(segments);
            best = Math.min(best, (processorTime() - before) / 1e9);
        }
        System.out.printf("%d %.6f %d%n", pieces(drawn), best, memory());
    }

    private static List<Coordinate[]> read() throws IOException {
        StreamTokenizer input = new StreamTokenizer(new java.io.BufferedReader(new java.io.InputStreamReader(System.in)));
        List<Coordinate[]> segments = new ArrayList<>();
        while (input.nextToken() != StreamTokenizer.TT_EOF) {
            double[] at = new double[4];
            for (int i = 0; i < 4; i++) {
                if (i > 0) {
                    input.nextToken();
                }
                at[i] = input.nval;
            }
            segments.add(new Coordinate[] {new Coordinate(at[0], at[1]), new Coordinate(at[2], at[3])});
        }
        return segments;
    }

    private static Collection<?> noded(List<Coordinate[]> segments) {
        List<SegmentString> given = new ArrayList<>();
        for (Coordinate[] segment : segments) {
            given.add(new NodedSegmentString(segment.clone(), null));
        }
        SnapRoundingNoder noder = new SnapRoundingNoder(new PrecisionModel(1));
        noder.computeNodes(given);
        return noder.getNodedSubstrings();
    }

    private static long pieces(Collection<?> drawn) {
        Set<LineSegment> pieces = new HashSet<>();
        for (Object each : drawn) {
            Coordinate[] chain = ((SegmentString) each).getCoordinates();
            for (int i = 1; i < chain.length; i++) {
                LineSegment piece = new LineSegment(chain[i - 1], chain[i]);
                piece.normalize();
                pieces.add(piece);
            }
        }
        return pieces.size();
    }

    private static long processorTime() {
        return ((com.sun.management.OperatingSystemMXBean) ManagementFactory.getOperatingSystemMXBean()).getProcessCpuTime();
    }

    private static long memory() throws IOException {
        for (String line : java.nio.file.Files.readAllLines(java.nio.file.Path.of("/proc/self/status"))) {
            if (line.startsWith("VmHWM:")) {
                return Long.parseLong(line.replaceAll("\\D", ""));
            }
        }
        return 0;
    }
}
