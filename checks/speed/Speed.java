import java.security.MessageDigest;
import java.security.SecureRandom;
import java.util.Arrays;
import java.util.HexFormat;
import org.bouncycastle.crypto.AsymmetricCipherKeyPair;
import org.bouncycastle.jce.provider.BouncyCastleProvider;
import org.bouncycastle.pqc.crypto.lms.LMOtsParameters;
import org.bouncycastle.pqc.crypto.lms.LMSKeyGenerationParameters;
import org.bouncycastle.pqc.crypto.lms.LMSKeyPairGenerator;
import org.bouncycastle.pqc.crypto.lms.LMSParameters;
import org.bouncycastle.pqc.crypto.lms.LMSPublicKeyParameters;
import org.bouncycastle.pqc.crypto.lms.LMSSigner;
import org.bouncycastle.pqc.crypto.lms.LMSigParameters;

/** Times Bouncy Castle's verification of the signatures that lms.c makes. The one word is how many rounds are timed. */
class Speed {
    static final int LEAVES = 32, TIMES = 16;

    /** Gives an identifier of bytes 1 and a secret of bytes 2. */
    static class Fixed extends SecureRandom {
        @Override
        public void nextBytes(byte[] bytes) {
            Arrays.fill(bytes, (byte) (bytes.length == 16 ? 1 : 2));
        }
    }

    static boolean verify(LMSPublicKeyParameters key, byte[] message, byte[] signature) {
        LMSSigner signer = new LMSSigner();
        signer.init(false, key);
        return signer.verifySignature(message, signature);
    }

    /** A signature that can't be read is refused by what is thrown. */
    static boolean refuses(byte[] key, byte[] message, byte[] signature) {
        try {
            return !verify(LMSPublicKeyParameters.getInstance(key), message, signature);
        } catch (Exception thrown) {
            return true;
        }
    }

    static byte[] turned(byte[] bytes, int at, int bit) {
        byte[] copy = bytes.clone();
        copy[at % copy.length] ^= (byte) (1 << bit);
        return copy;
    }

    /** How many steps a verification has to make: what the digits of the digest and of its checksum lack. */
    static int steps(byte[] identifier, byte[] message, byte[] signature) throws Exception {
        MessageDigest sha = MessageDigest.getInstance("SHA-256");
        sha.update(identifier);
        sha.update(signature, 0, 4);
        sha.update(new byte[] {(byte) 0x81, (byte) 0x81});
        sha.update(signature, 8, 32);
        int sum = 0;
        for (byte digit : sha.digest(message)) {
            sum += 255 - (digit & 255);
        }
        return sum + 255 - (sum >> 8) + 255 - (sum & 255);
    }

    public static void main(String[] words) throws Exception {
        int rounds = Integer.parseInt(words[0]);
        LMSKeyPairGenerator generator = new LMSKeyPairGenerator();
        generator.init(new LMSKeyGenerationParameters(
            new LMSParameters(LMSigParameters.lms_sha256_n32_h5, LMOtsParameters.sha256_n32_w8), new Fixed()));
        AsymmetricCipherKeyPair pair = generator.generateKeyPair();
        LMSPublicKeyParameters key = (LMSPublicKeyParameters) pair.getPublic();
        byte[] keyBytes = key.getEncoded();
        // An encoded key may have the number of levels before it, which is for HSS.
        keyBytes = Arrays.copyOfRange(keyBytes, keyBytes.length - 56, keyBytes.length);
        byte[] identifier = Arrays.copyOfRange(keyBytes, 8, 24);
        LMSSigner signer = new LMSSigner();
        signer.init(true, pair.getPrivate());
        byte[][] messages = new byte[LEAVES][1000], signatures = new byte[LEAVES][];
        MessageDigest all = MessageDigest.getInstance("SHA-256");
        int sum = 0;
        for (int leaf = 0; leaf < LEAVES; leaf++) {
            Arrays.fill(messages[leaf], (byte) (7 + leaf));
            signatures[leaf] = signer.generateSignature(messages[leaf]);
            all.update(signatures[leaf]);
            sum += steps(identifier, messages[leaf], signatures[leaf]);
            if (!verify(key, messages[leaf], signatures[leaf])) {
                throw new IllegalStateException("a good signature is refused");
            }
            if (!refuses(keyBytes, messages[leaf], turned(signatures[leaf], leaf * 41, leaf % 8))
                    || !refuses(keyBytes, turned(messages[leaf], leaf * 31, leaf % 8), signatures[leaf])
                    || !refuses(turned(keyBytes, leaf * 7, leaf % 8), messages[leaf], signatures[leaf])
                    || refuses(keyBytes, messages[leaf], signatures[leaf])) {
                throw new IllegalStateException("a turned bit is accepted");
            }
        }
        // Warm: at least five seconds and four rounds.
        long start = System.nanoTime();
        for (int i = 0; i < 4 || System.nanoTime() - start < 5_000_000_000L; i++) {
            timed(key, messages, signatures);
        }
        double[] rates = new double[rounds];
        for (int i = 0; i < rounds; i++) {
            rates[i] = timed(key, messages, signatures);
        }
        Arrays.sort(rates);
        System.out.printf("Bouncy Castle %s on Java %s: %.0f verifications a second (median), %.0f at most%n",
            new BouncyCastleProvider().getVersionStr(), System.getProperty("java.version"), rates[rounds / 2], rates[rounds - 1]);
        System.out.printf("%d signatures, %.1f steps on average, %d the first; sha256 %s%n",
            LEAVES, (double) sum / LEAVES, steps(identifier, messages[0], signatures[0]), HexFormat.of().formatHex(all.digest()));
    }

    /** The verifications a second of a round. */
    static double timed(LMSPublicKeyParameters key, byte[][] messages, byte[][] signatures) {
        int valid = 0;
        long from = System.nanoTime();
        for (int i = 0; i < TIMES * LEAVES; i++) {
            if (verify(key, messages[i % LEAVES], signatures[i % LEAVES])) {
                valid++;
            }
        }
        long to = System.nanoTime();
        if (valid != TIMES * LEAVES) {
            throw new IllegalStateException("a good signature is refused");
        }
        return valid / (1e-9 * (to - from));
    }
}
