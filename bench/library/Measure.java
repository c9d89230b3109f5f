import java.io.BufferedReader;
import java.io.IOException;
import java.io.InputStreamReader;
import java.lang.management.ManagementFactory;
import java.lang.management.ThreadMXBean;
import java.nio.file.Files;
import java.nio.file.Path;
import java.util.HexFormat;
import java.util.List;
import org.bouncycastle.crypto.CipherParameters;
import org.bouncycastle.pqc.crypto.MessageSigner;
import org.bouncycastle.pqc.crypto.lms.HSSPublicKeyParameters;
import org.bouncycastle.pqc.crypto.lms.HSSSigner;
import org.bouncycastle.pqc.crypto.lms.LMSPublicKeyParameters;
import org.bouncycastle.pqc.crypto.lms.LMSSigner;

/**
 * Verifies signatures by Bouncy Castle on request, and tells how long that took, as measure.c does, whose words, lines
 * and answers it has. It counts no hashes, and its processor time is that of the thread that verifies: what the virtual
 * machine compiles and collects beside it is left out.
 */
public final class Measure {
    private static final HexFormat HEX = HexFormat.of();
    private static final int LMS_KEY = 56;

    private record Row(byte[] key, byte[] text, byte[] signature) {
        static Row of(String line) {
            String[] words = line.split(" ");
            return new Row(HEX.parseHex(words[1]), HEX.parseHex(words[2]), HEX.parseHex(words[3]));
        }

        boolean verifies() throws IOException {
            boolean isLms = key.length == LMS_KEY;
            MessageSigner verifier = isLms ? new LMSSigner() : new HSSSigner();
            CipherParameters parameters =
                    isLms ? LMSPublicKeyParameters.getInstance(key) : HSSPublicKeyParameters.getInstance(key);
            verifier.init(false, parameters);
            return verifier.verifySignature(text, signature);
        }
    }

    public static void main(String[] names) throws IOException {
        List<Row> rows = Files.readAllLines(Path.of(names[0])).stream().map(Row::of).toList();
        ThreadMXBean threads = ManagementFactory.getThreadMXBean();
        BufferedReader requests = new BufferedReader(new InputStreamReader(System.in));
        for (String line = requests.readLine(); line != null; line = requests.readLine()) {
            String[] words = line.split(" ");
            Row row = rows.get(Integer.parseInt(words[0]));
            int calls = Integer.parseInt(words[1]);
            long began = threads.getCurrentThreadCpuTime();
            for (int call = 0; call < calls; call += 1) {
                if (!row.verifies()) {
                    System.err.println("row " + words[0] + " does not verify");
                    System.exit(1);
                }
            }
            System.out.println(threads.getCurrentThreadCpuTime() - began + " 0");
        }
    }
}
