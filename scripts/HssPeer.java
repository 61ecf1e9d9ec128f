import java.io.BufferedReader;
import java.io.ByteArrayOutputStream;
import java.io.DataOutputStream;
import java.io.InputStreamReader;
import java.util.Arrays;

import org.bouncycastle.pqc.crypto.lms.HSSPrivateKeyParameters;
import org.bouncycastle.pqc.crypto.lms.HSSPublicKeyParameters;
import org.bouncycastle.pqc.crypto.lms.HSSSigner;
import org.bouncycastle.pqc.crypto.lms.LMOtsParameters;
import org.bouncycastle.pqc.crypto.lms.LMSPrivateKeyParameters;
import org.bouncycastle.pqc.crypto.lms.LMSPublicKeyParameters;
import org.bouncycastle.pqc.crypto.lms.LMSSigner;
import org.bouncycastle.pqc.crypto.lms.LMSigParameters;
import org.bouncycastle.util.encoders.Hex;

/**
 * HSS of two levels by Bouncy Castle, a line an answer. `sign TOP BOTTOM Q0 Q1 TEXT`: the signature by two private key files, at these
 * leaves. `verify PUBLIC TEXT SIGNATURE`: whether it is valid under two levels and the top's public key file.
 */
public class HssPeer {
    static final LMSigParameters[] TREES = {LMSigParameters.lms_sha256_n32_h5, LMSigParameters.lms_sha256_n32_h10,
        LMSigParameters.lms_sha256_n32_h15};
    static final LMOtsParameters[] CHAINS = {LMOtsParameters.sha256_n32_w1, LMOtsParameters.sha256_n32_w2,
        LMOtsParameters.sha256_n32_w4, LMOtsParameters.sha256_n32_w8};

    static LMSPrivateKeyParameters at(String hex, String leaf) {
        byte[] file = Hex.decode(hex);
        LMSigParameters tree = TREES[file[8] - 5];
        return new LMSPrivateKeyParameters(tree, CHAINS[file[12] - 1], Integer.parseInt(leaf), Arrays.copyOfRange(file, 13, 29),
            1 << tree.getH(), Arrays.copyOfRange(file, 29, 61));
    }

    /** The private key of both levels, as this library spells it: version, levels, index and its limit, no shard, keys, signatures. */
    static HSSPrivateKeyParameters both(LMSPrivateKeyParameters top, LMSPrivateKeyParameters bottom) throws Exception {
        LMSSigner upper = new LMSSigner();
        upper.init(true, top);
        ByteArrayOutputStream bytes = new ByteArrayOutputStream();
        DataOutputStream out = new DataOutputStream(bytes);
        out.writeInt(0);
        out.writeInt(2);
        out.writeLong(0);
        out.writeLong(1 << 20);
        out.writeBoolean(false);
        byte[] signed = upper.generateSignature(bottom.getPublicKey().getEncoded());
        out.write(top.getEncoded());
        out.write(bottom.getEncoded());
        out.write(signed);
        return HSSPrivateKeyParameters.getInstance(bytes.toByteArray());
    }

    static String answer(String[] words) throws Exception {
        HSSSigner signer = new HSSSigner();
        if (words[0].equals("sign")) {
            signer.init(true, both(at(words[1], words[3]), at(words[2], words[4])));
            return Hex.toHexString(signer.generateSignature(Hex.decode(words[5])));
        }
        signer.init(false, new HSSPublicKeyParameters(2, LMSPublicKeyParameters.getInstance(Hex.decode(words[1]))));
        return signer.verifySignature(Hex.decode(words[2]), Hex.decode(words[3])) ? "valid" : "invalid";
    }

    public static void main(String[] args) throws Exception {
        BufferedReader lines = new BufferedReader(new InputStreamReader(System.in));
        for (String line = lines.readLine(); line != null; line = lines.readLine()) {
            String[] words = line.split(" ", -1);
            String text;
            try {
                text = answer(words);
            } catch (Exception e) {
                text = words[0].equals("verify") ? "invalid" : "refused " + e;
            }
            System.out.println(text);
        }
    }
}
