import java.io.BufferedReader;
import java.io.IOException;
import java.io.InputStreamReader;
import java.security.SecureRandom;
import java.util.Arrays;
import java.util.HashMap;
import java.util.HexFormat;
import java.util.Map;
import org.bouncycastle.crypto.AsymmetricCipherKeyPair;
import org.bouncycastle.crypto.params.AsymmetricKeyParameter;
import org.bouncycastle.pqc.crypto.lms.HSSKeyGenerationParameters;
import org.bouncycastle.pqc.crypto.lms.HSSKeyPairGenerator;
import org.bouncycastle.pqc.crypto.lms.HSSSigner;
import org.bouncycastle.pqc.crypto.lms.LMOtsParameters;
import org.bouncycastle.pqc.crypto.lms.LMSKeyGenerationParameters;
import org.bouncycastle.pqc.crypto.lms.LMSKeyPairGenerator;
import org.bouncycastle.pqc.crypto.lms.LMSKeyParameters;
import org.bouncycastle.pqc.crypto.lms.LMSParameters;
import org.bouncycastle.pqc.crypto.lms.LMSSigner;
import org.bouncycastle.pqc.crypto.lms.LMSigParameters;

/**
 * A module that makes LMS and HSS keys and signs with Bouncy Castle, for ceremony.py beside this folder. Reads a line for
 * each request: `key NAME LEVELS WIDTH HEIGHT`, with 0 levels for a key of LMS and not of HSS, or `sign NAME HEX`. Prints
 * the public key or the signature in hexadecimal digits. A key stays in memory and signs by one leaf after the other.
 */
class Keeper {
    private static final Map<String, AsymmetricKeyParameter> KEYS = new HashMap<>();

    static LMSParameters parameters(String width, String height) {
        LMOtsParameters ots = width.equals("4") ? LMOtsParameters.sha256_n32_w4 : LMOtsParameters.sha256_n32_w8;
        LMSigParameters tree = switch (height) {
            case "5" -> LMSigParameters.lms_sha256_n32_h5;
            case "10" -> LMSigParameters.lms_sha256_n32_h10;
            default -> LMSigParameters.lms_sha256_n32_h15;
        };
        return new LMSParameters(tree, ots);
    }

    static byte[] make(String name, int levels, LMSParameters kind) throws IOException {
        AsymmetricCipherKeyPair pair;
        if (levels == 0) {
            LMSKeyPairGenerator generator = new LMSKeyPairGenerator();
            generator.init(new LMSKeyGenerationParameters(kind, new SecureRandom()));
            pair = generator.generateKeyPair();
        } else {
            LMSParameters[] kinds = new LMSParameters[levels];
            Arrays.fill(kinds, kind);
            HSSKeyPairGenerator generator = new HSSKeyPairGenerator();
            generator.init(new HSSKeyGenerationParameters(kinds, new SecureRandom()));
            pair = generator.generateKeyPair();
        }
        KEYS.put(name, pair.getPrivate());
        return ((LMSKeyParameters) pair.getPublic()).getEncoded();
    }

    static byte[] sign(String name, byte[] message) {
        AsymmetricKeyParameter key = KEYS.get(name);
        if (key.getClass().getSimpleName().startsWith("HSS")) {
            HSSSigner signer = new HSSSigner();
            signer.init(true, key);
            return signer.generateSignature(message);
        }
        LMSSigner signer = new LMSSigner();
        signer.init(true, key);
        return signer.generateSignature(message);
    }

    public static void main(String[] words) throws IOException {
        BufferedReader in = new BufferedReader(new InputStreamReader(System.in));
        HexFormat hex = HexFormat.of();
        for (String line = in.readLine(); line != null; line = in.readLine()) {
            String[] request = line.split(" ");
            byte[] answer = request[0].equals("key")
                ? make(request[1], Integer.parseInt(request[2]), parameters(request[3], request[4]))
                : sign(request[1], hex.parseHex(request[2]));
            System.out.println(hex.formatHex(answer));
            System.out.flush();
        }
    }
}
