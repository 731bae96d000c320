import java.io.BufferedReader;
import java.io.IOException;
import java.io.InputStreamReader;
import java.util.HexFormat;
import org.bouncycastle.pqc.crypto.lms.LMSPublicKeyParameters;
import org.bouncycastle.pqc.crypto.lms.LMSSigner;

/** Verifies LMS signatures by Bouncy Castle. Reads lines of a public key, a message and a signature in hexadecimal digits. */
class Verifier {
    public static void main(String[] words) throws IOException {
        BufferedReader in = new BufferedReader(new InputStreamReader(System.in));
        HexFormat hex = HexFormat.of();
        for (String line = in.readLine(); line != null; line = in.readLine()) {
            String[] parts = line.split(" ");
            LMSSigner signer = new LMSSigner();
            signer.init(false, LMSPublicKeyParameters.getInstance(hex.parseHex(parts[0])));
            System.out.println(signer.verifySignature(hex.parseHex(parts[1]), hex.parseHex(parts[2])));
        }
    }
}
