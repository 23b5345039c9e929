import java.util.ArrayList;
import java.util.List;
import org.apache.logging.log4j.LogManager;
import org.apache.logging.log4j.Logger;
import org.apache.logging.log4j.MarkerManager;
import org.apache.logging.log4j.ThreadContext;
import org.apache.logging.log4j.message.StructuredDataMessage;

/** Events that break usual layouts of log4j2. It prints a line for each, its kind and its token, and one for what else has a token. */
public class Corpus {
    static int next = 0;

    static String token(String kind) {
        System.out.print("record ");
        return also(kind);
    }

    /** A second token of a record. */
    static String also(String kind) {
        String token = String.format("{%03d}", next++);
        System.out.println(kind + " " + token);
        return token;
    }

    static void structured(Logger log, String kind, String id, String type, String key) {
        StructuredDataMessage message;
        try {
            message = new StructuredDataMessage(id, "{%03d}".formatted(next), type);
            message.put(key, "a\"b]c\\d");
        } catch (IllegalArgumentException refused) {
            return;
        }
        token(kind);
        log.info(message);
    }

    public static void main(String[] words) {
        Logger log = LogManager.getLogger("corpus");
        int most = Integer.parseInt(words[0]);
        List<String> texts = new ArrayList<>(List.of("plain", "[sd a=\"b\"]", "[", "-", "\ufeffmark", "<34>1 - - - - - - like", "line\nfeed\r\n",
            "nul\0inside", "\u00f6\ud83d\ude00", "\ud83d alone", "tab\tbell\u0007"));
        for (String text : texts) {
            log.info(token("text") + text);
            log.info(text + token("text"));
        }
        log.trace(token("text"));
        log.debug(token("text"));
        log.warn(token("text"));
        log.error(token("text"));
        log.fatal(token("text"));
        log.info(MarkerManager.getMarker("M\u00f6"), token("text"));
        log.error(token("text"), new IllegalStateException("first\nsecond", new RuntimeException("x".repeat(70_000))));
        System.out.println("record without");
        log.info("");
        ThreadContext.put("key", "value");
        log.info(token("text"));
        ThreadContext.put("k\u00f6y =]\"", "v\"]\\\n");
        log.info(token("context"));
        ThreadContext.clearAll();
        ThreadContext.put("k".repeat(40), "v");
        log.info(token("context"));
        ThreadContext.clearAll();
        ThreadContext.put("long", "v".repeat(Math.min(most, 70_000)));
        log.info(token("context"));
        ThreadContext.clearAll();
        structured(log, "text", "login@32473", "Audit", "user");
        structured(log, "text", "unknown", "Audit", "user");
        structured(log, "structured", "i d@32473", "Audit", "user");
        structured(log, "structured", "i]d@32473", "Audit", "user");
        structured(log, "structured", "\u00efd@32473", "Audit", "user");
        structured(log, "structured", "id@32473", "Au dit", "user");
        structured(log, "structured", "id@32473", "\u00c4udit", "user");
        structured(log, "structured", "id@32473", "T".repeat(33), "user");
        structured(log, "structured", "i".repeat(33) + "@1", "Audit", "user");
        structured(log, "structured", "id@32473", "Audit", "u".repeat(33));
        structured(log, "structured", "id@32473", "Audit", "\u00fc k");
        for (int size : new int[] {8_000, 15_900}) {
            log.info(token("text") + " " + "x".repeat(size) + also("text"));
            log.info(token("text") + " " + "\u20ac".repeat(size) + also("text"));
        }
        for (int size : new int[] {16_000, 64_000, 65_000, 65_500, 70_000}) {
            if (size <= most) {
                log.info(token("long") + " " + "x".repeat(size) + also("long"));
            }
        }
        if (70_000 <= most) {
            log.info(token("long") + " " + "\u00f6".repeat(35_000) + also("long"));
        }
        System.out.println("record text {last}");
        log.info("{last}");
        LogManager.shutdown();
    }
}
