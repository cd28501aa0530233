import java.io.BufferedReader;
import java.io.IOException;
import java.io.InputStreamReader;
import java.net.HttpURLConnection;
import java.net.URL;
import java.util.HexFormat;
import org.ietf.jgss.GSSContext;
import org.ietf.jgss.GSSException;
import org.ietf.jgss.GSSManager;
import org.ietf.jgss.GSSName;
import org.ietf.jgss.Oid;

/** A client over Java's GSS-API, which does as client.py does: {@code Client SERVICE bare|spnego}. Or one that gets a page by
 *  HttpURLConnection, and prints the status and the page: {@code Client URL}. */
public class Client {
    public static void main(String[] words) throws Exception {
        if (words.length == 1) {
            page(words[0]);
        } else {
            exchange(words[0], new Oid(words[1].equals("spnego") ? "1.3.6.1.5.5.2" : "1.2.840.113554.1.2.2"));
        }
    }

    private static void exchange(String service, Oid mechanism) throws GSSException, IOException {
        GSSManager manager = GSSManager.getInstance();
        GSSName name = manager.createName(service, GSSName.NT_HOSTBASED_SERVICE);
        GSSContext context = manager.createContext(name, mechanism, null, GSSContext.DEFAULT_LIFETIME);
        context.requestMutualAuth(true);
        System.out.println(HexFormat.of().formatHex(context.initSecContext(new byte[0], 0, 0)));
        byte[] answer = HexFormat.of().parseHex(new BufferedReader(new InputStreamReader(System.in)).readLine());
        try {
            context.initSecContext(answer, 0, answer.length);
        } catch (GSSException fault) {
            System.err.println(fault);
        }
        System.out.println(context.isEstablished() ? "complete" : "incomplete");
    }

    private static void page(String url) throws IOException {
        HttpURLConnection connection = (HttpURLConnection) new URL(url).openConnection();
        int status = connection.getResponseCode();
        System.out.println(status + " " + (status == 200 ? new String(connection.getInputStream().readAllBytes()).strip() : "-"));
    }
}
