import java.io.BufferedReader;
import java.io.InputStreamReader;
import java.util.HexFormat;
import org.ietf.jgss.GSSContext;
import org.ietf.jgss.GSSException;
import org.ietf.jgss.GSSManager;
import org.ietf.jgss.GSSName;
import org.ietf.jgss.MessageProp;
import org.ietf.jgss.Oid;

/** A side of a context over Java's GSS-API, by the lines of side.py: {@code Side initiate NAME mutual|plain}. */
public class Side {
    private static final HexFormat HEX = HexFormat.of();

    public static void main(String[] words) throws Exception {
        GSSManager manager = GSSManager.getInstance();
        GSSName name = manager.createName(words[1], GSSName.NT_HOSTBASED_SERVICE);
        GSSContext context = manager.createContext(name, new Oid("1.2.840.113554.1.2.2"), null, GSSContext.DEFAULT_LIFETIME);
        context.requestMutualAuth(words[2].equals("mutual"));
        context.requestConf(true);
        context.requestInteg(true);
        System.out.println(HEX.formatHex(context.initSecContext(new byte[0], 0, 0)));
        BufferedReader in = new BufferedReader(new InputStreamReader(System.in));
        for (String line = in.readLine(); line != null; line = in.readLine()) {
            try {
                System.out.println(answer(context, line.split(" ")));
            } catch (GSSException fault) {
                System.out.println("fault " + fault.getMajor());
            }
        }
    }

    private static String answer(GSSContext context, String[] words) throws GSSException {
        byte[] second = words[0].equals("wrap") || words[0].equals("limit") ? new byte[0] : bytes(words[1]);
        switch (words[0]) {
            case "token":
                context.initSecContext(second, 0, second.length);
                return context.isEstablished() ? "complete" : "incomplete";
            case "wrap":
                byte[] text = bytes(words[2]);
                return shown(context.wrap(text, 0, text.length, new MessageProp(words[1].equals("sealed"))));
            case "unwrap":
                MessageProp found = new MessageProp(false);
                byte[] opened = context.unwrap(second, 0, second.length, found);
                return (found.getPrivacy() ? "sealed " : "plain ") + shown(opened);
            case "mic":
                return shown(context.getMIC(second, 0, second.length, new MessageProp(true)));
            case "verify":
                byte[] token = bytes(words[2]);
                context.verifyMIC(token, 0, token.length, second, 0, second.length, new MessageProp(true));
                return "verified";
            default:
                return Integer.toString(context.getWrapSizeLimit(0, words[1].equals("sealed"), Integer.parseInt(words[2])));
        }
    }

    private static byte[] bytes(String word) {
        return word.equals("-") ? new byte[0] : HEX.parseHex(word);
    }

    private static String shown(byte[] bytes) {
        return bytes.length == 0 ? "-" : HEX.formatHex(bytes);
    }
}
