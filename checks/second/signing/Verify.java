import java.io.BufferedReader;
import java.io.IOException;
import java.io.InputStreamReader;
import java.util.HexFormat;
import org.bouncycastle.pqc.crypto.lms.LMSPublicKeyParameters;
import org.bouncycastle.pqc.crypto.lms.LMSSigner;

/**
 * Verifies LMS signatures with Bouncy Castle, for signing.py beside this folder. Reads three lines for each: a public key, a
 * message and a signature, in hexadecimal digits. Prints `valid` or `invalid` for each.
 */
class Verify {
    /** A signature that Bouncy Castle can't read is invalid; a key that it can't read ends the program. */
    static boolean isValid(byte[] key, byte[] message, byte[] signature) throws IOException {
        LMSSigner signer = new LMSSigner();
        signer.init(false, LMSPublicKeyParameters.getInstance(key));
        try {
            return signer.verifySignature(message, signature);
        } catch (Exception thrown) {
            return false;
        }
    }

    public static void main(String[] words) throws IOException {
        BufferedReader in = new BufferedReader(new InputStreamReader(System.in));
        HexFormat hex = HexFormat.of();
        for (String key = in.readLine(); key != null; key = in.readLine()) {
            byte[] message = hex.parseHex(in.readLine());
            byte[] signature = hex.parseHex(in.readLine());
            System.out.println(isValid(hex.parseHex(key), message, signature) ? "valid" : "invalid");
        }
    }
}
