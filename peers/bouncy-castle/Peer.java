import java.io.IOException;
import java.lang.management.ManagementFactory;
import java.lang.management.ThreadMXBean;
import java.nio.file.Files;
import java.nio.file.Path;
import java.security.SecureRandom;
import java.util.Arrays;
import java.util.HexFormat;
import java.util.List;
import org.bouncycastle.crypto.AsymmetricCipherKeyPair;
import org.bouncycastle.pqc.crypto.lms.HSSKeyGenerationParameters;
import org.bouncycastle.pqc.crypto.lms.HSSKeyPairGenerator;
import org.bouncycastle.pqc.crypto.lms.HSSPublicKeyParameters;
import org.bouncycastle.pqc.crypto.lms.HSSSigner;
import org.bouncycastle.pqc.crypto.lms.LMOtsParameters;
import org.bouncycastle.pqc.crypto.lms.LMSParameters;
import org.bouncycastle.pqc.crypto.lms.LMSPrivateKeyParameters;
import org.bouncycastle.pqc.crypto.lms.LMSPublicKeyParameters;
import org.bouncycastle.pqc.crypto.lms.LMSSigner;
import org.bouncycastle.pqc.crypto.lms.LMSigParameters;

/**
 * The keys, orders and endorsements of miniboot, by the LMS and the HSS of Bouncy Castle.
 *
 * <pre>
 * Peer public KEY                       prints the public key of a key file
 * Peer verify ORDER SPAN PUBLIC [LAYER PUBLIC]..   whether the order's signatures are of these keys
 * Peer sign KEY BODY                    prints the line of the order with this body, signed at the key's next index
 * Peer signatures FILE                  verifies lines KEY TEXT SIGNATURE, each also with a bit turned
 * Peer time FILE                        verifies such lines again and again, and prints how long that takes
 * Peer endorsed PUBLIC ROOT ENDORSEMENT   whether the endorsement of the root key is of this HSS key
 * Peer endorse ROOT LEVELS PUBLIC OUT     makes an HSS key, and with it the endorsement of the root key
 * </pre>
 *
 * KEY, PUBLIC, ORDER, ROOT, ENDORSEMENT and OUT are files; BODY stands in hexadecimal; SPAN is the length of the
 * order's body.
 */
public final class Peer {
    private static final HexFormat HEX = HexFormat.of();
    /** How many signatures are verified before those that are timed, and in how many rounds these are. */
    private static final int WARM = 4_000;
    private static final int ROUNDS = 5;

    /** A signature with its key and its text. */
    private record Row(byte[] key, byte[] text, byte[] signature) {
        static Row of(String line) {
            String[] parts = line.split(" ");
            byte[] text = parts[1].equals("-") ? new byte[0] : HEX.parseHex(parts[1]);
            return new Row(HEX.parseHex(parts[0]), text, HEX.parseHex(parts[2]));
        }
    }

    public static void main(String[] words) throws IOException {
        boolean right = switch (words[0]) {
            case "public" -> printPublic(Path.of(words[1]));
            case "verify" -> verifyOrder(words);
            case "sign" -> printOrder(Path.of(words[1]), HEX.parseHex(words[2]));
            case "signatures" -> verifyAll(Path.of(words[1]));
            case "time" -> printTime(Path.of(words[1]));
            case "endorsed" -> verifyEndorsement(words);
            case "endorse" -> endorse(words);
            default -> throw new IllegalArgumentException(words[0]);
        };
        System.exit(right ? 0 : 1);
    }

    /** The private key of a key file: MBK1, an identifier, a seed and the next index. */
    private static LMSPrivateKeyParameters privateKey(Path path) throws IOException {
        byte[] file = Files.readAllBytes(path);
        if (file.length != 56 || !new String(file, 0, 4).equals("MBK1")) {
            throw new IOException("no key file");
        }
        return new LMSPrivateKeyParameters(
                LMSigParameters.lms_sha256_n32_h5,
                LMOtsParameters.sha256_n32_w4,
                file[55],
                Arrays.copyOfRange(file, 4, 20),
                32,
                Arrays.copyOfRange(file, 20, 52));
    }

    private static boolean printPublic(Path path) throws IOException {
        System.out.println(HEX.formatHex(privateKey(path).getPublicKey().getEncoded()));
        return true;
    }

    private static boolean printOrder(Path path, byte[] body) throws IOException {
        LMSSigner signer = new LMSSigner();
        signer.init(true, privateKey(path));
        byte[] signature = signer.generateSignature(join(new byte[] {1}, body));
        byte[] length = {(byte) (signature.length >> 8), (byte) signature.length};
        byte[] order = join(body, length, signature, new byte[] {0});
        System.out.println("command " + HEX.formatHex(order));
        return true;
    }

    /** The signature of the owner in charge is of 1 and the body, those of others of 2, their layer and the body. */
    private static boolean verifyOrder(String[] words) throws IOException {
        String line = Files.readString(Path.of(words[1])).strip();
        byte[] order = HEX.parseHex(line.substring("command ".length()));
        int at = Integer.parseInt(words[2]);
        byte[] body = Arrays.copyOf(order, at);
        boolean right = verifies(Path.of(words[3]), join(new byte[] {1}, body), piece(order, at));
        at += 2 + number(order, at);
        int count = order[at];
        at += 1;
        if (count != (words.length - 4) / 2) {
            throw new IOException(count + " countersignatures");
        }
        for (int i = 0; i < count; i += 1) {
            byte layer = Byte.parseByte(words[4 + 2 * i]);
            boolean named = order[at] == layer;
            byte[] text = join(new byte[] {2, layer}, body);
            right &= named && verifies(Path.of(words[5 + 2 * i]), text, piece(order, at + 1));
            at += 3 + number(order, at + 1);
        }
        return right && at == order.length;
    }

    /** What a maker signs of a root key: 5, and the key. */
    private static byte[] endorsedText(Path root) throws IOException {
        return join(new byte[] {5}, Files.readAllBytes(root));
    }

    private static boolean verifyEndorsement(String[] words) throws IOException {
        HSSSigner verifier = new HSSSigner();
        verifier.init(false, HSSPublicKeyParameters.getInstance(Files.readAllBytes(Path.of(words[1]))));
        return verifier.verifySignature(endorsedText(Path.of(words[2])), Files.readAllBytes(Path.of(words[3])));
    }

    /**
     * The levels have types 5 and 3, 5 and 4, and 6 and 4 from above. With one or two levels some numbers are skipped:
     * of two, those of the last level's first key.
     */
    private static boolean endorse(String[] words) throws IOException {
        int levels = Integer.parseInt(words[2]);
        LMSParameters[] types = {
            new LMSParameters(LMSigParameters.lms_sha256_n32_h5, LMOtsParameters.sha256_n32_w4),
            new LMSParameters(LMSigParameters.lms_sha256_n32_h5, LMOtsParameters.sha256_n32_w8),
            new LMSParameters(LMSigParameters.lms_sha256_n32_h10, LMOtsParameters.sha256_n32_w8),
        };
        HSSKeyPairGenerator generator = new HSSKeyPairGenerator();
        generator.init(new HSSKeyGenerationParameters(Arrays.copyOf(types, levels), new SecureRandom()));
        AsymmetricCipherKeyPair pair = generator.generateKeyPair();
        HSSSigner signer = new HSSSigner();
        signer.init(true, pair.getPrivate());
        byte[] text = endorsedText(Path.of(words[1]));
        int skipped = levels == 1 ? 31 : levels == 2 ? 32 : 0;
        for (int number = 0; number < skipped; number += 1) {
            signer.generateSignature(text);
        }
        byte[] signature = signer.generateSignature(text);
        Files.write(Path.of(words[3]), ((HSSPublicKeyParameters) pair.getPublic()).getEncoded());
        Files.write(Path.of(words[4]), signature);
        return true;
    }

    private static boolean verifyAll(Path path) throws IOException {
        List<String> lines = Files.readAllLines(path);
        boolean right = !lines.isEmpty();
        for (String line : lines) {
            Row row = Row.of(line);
            byte[] key = row.key(), text = row.text(), signature = row.signature();
            boolean verifies = verifies(key, text, signature);
            signature[signature.length - 1] ^= 1;
            if (!verifies || verifies(key, text, signature)) {
                System.out.println("types " + key[3] + " and " + key[7] + ": " + verifies);
                right = false;
            }
        }
        return right;
    }

    /** In processor time of this thread, the least of the rounds. */
    private static boolean printTime(Path path) throws IOException {
        List<Row> rows = Files.readAllLines(path).stream().map(Row::of).toList();
        ThreadMXBean threads = ManagementFactory.getThreadMXBean();
        boolean right = !rows.isEmpty();
        for (int done = 0; right && done < WARM; done += rows.size()) {
            right = verifyRows(rows);
        }
        long least = Long.MAX_VALUE;
        for (int round = 0; right && round < ROUNDS; round += 1) {
            long began = threads.getCurrentThreadCpuTime();
            right = verifyRows(rows);
            least = Math.min(least, threads.getCurrentThreadCpuTime() - began);
        }
        if (right) {
            double milliseconds = least / 1e6;
            System.out.printf("%.2f ms, %.3f ms a signature%n", milliseconds, milliseconds / rows.size());
        } else {
            System.out.println("a signature does not verify");
        }
        return right;
    }

    private static boolean verifyRows(List<Row> rows) throws IOException {
        for (Row row : rows) {
            if (!verifies(row.key(), row.text(), row.signature())) {
                return false;
            }
        }
        return true;
    }

    private static boolean verifies(Path path, byte[] text, byte[] signature) throws IOException {
        byte[] key = Files.readAllBytes(path);
        if (key.length != 56) {
            throw new IOException("a public key of " + key.length + " bytes");
        }
        return verifies(key, text, signature);
    }

    private static boolean verifies(byte[] key, byte[] text, byte[] signature) throws IOException {
        LMSSigner verifier = new LMSSigner();
        verifier.init(false, LMSPublicKeyParameters.getInstance(key));
        return verifier.verifySignature(text, signature);
    }

    private static int number(byte[] bytes, int at) {
        return (bytes[at] & 0xFF) << 8 | bytes[at + 1] & 0xFF;
    }

    /** The bytes after a length of two bytes, as many as it says. */
    private static byte[] piece(byte[] bytes, int at) {
        return Arrays.copyOfRange(bytes, at + 2, at + 2 + number(bytes, at));
    }

    private static byte[] join(byte[]... parts) {
        byte[] all = new byte[0];
        for (byte[] part : parts) {
            int length = all.length;
            all = Arrays.copyOf(all, length + part.length);
            System.arraycopy(part, 0, all, length, part.length);
        }
        return all;
    }
}
