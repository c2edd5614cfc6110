import java.io.BufferedReader;
import java.io.IOException;
import java.io.InputStreamReader;
import java.util.ArrayList;
import java.util.HashMap;
import java.util.List;
import java.util.Map;
import java.util.Random;

/** Does to collect/Recorder.java what the lines of standard input say, and prints for each line what came of it. tests/writers.py says what the
 * lines are. */
public final class Main {
    private static Recorder run;
    private static long now;
    private static final Map<String, Recorder.Session> SESSIONS = new HashMap<>();
    private static final Map<String, Recorder.Transaction> TRANSACTIONS = new HashMap<>();
    private static final Map<String, Long> IDENTITIES = new HashMap<>();

    private static byte[] bytes(String word) {
        String digits = word.equals("-") ? "" : word;
        byte[] found = new byte[digits.length() / 2];
        for (int place = 0; place < found.length; place++)
            found[place] = (byte) Integer.parseInt(digits.substring(2 * place, 2 * place + 2), 16);
        return found;
    }

    private static String text(String word) {
        byte[] its = bytes(word);
        StringBuilder text = new StringBuilder();
        for (int place = 0; place < its.length; place += 2)
            text.append((char) ((its[place] & 255) << 8 | its[place + 1] & 255));
        return text.toString();
    }

    private static long identity(String name) {
        return IDENTITIES.getOrDefault(name, 999L);
    }

    private static long seen(String word) {
        if (word.equals("none"))
            return Recorder.identity(null);
        if (word.startsWith("@"))
            return identity(word.substring(1));
        return Recorder.identity(new String(bytes(word.substring(5)), java.nio.charset.StandardCharsets.ISO_8859_1));
    }

    private static String act(String[] words) throws IOException, InterruptedException {
        switch (words[0]) {
            case "open":
                Recorder.Options options = new Recorder.Options().clock(() -> now);
                if (words[2].equals("all"))
                    options.moments();
                if (words[5].equals("yes"))
                    options.overwrite();
                if (!words[4].equals("0"))
                    options.share(Integer.parseInt(words[3]), Integer.parseInt(words[4]));
                run = new Recorder(words[1], options);
                return "ok";
            case "clock":
                now = Long.parseLong(words[1]);
                return "ok";
            case "name":
                return Recorder.name(bytes(words[1]));
            case "text":
                return Recorder.name(text(words[1]));
            case "session":
                SESSIONS.put(words[1], run.session());
                return "ok";
            case "begin":
                TRANSACTIONS.put(words[1], SESSIONS.get(words[1]).begin(words.length < 3 ? null : new String(bytes(words[2]), java.nio.charset.StandardCharsets.UTF_8)));
                return TRANSACTIONS.get(words[1]).name();
            case "leave":
                SESSIONS.get(words[1]).close();
                return "ok";
            case "close":
                run.close();
                return "warnings: " + String.join(" | ", run.warnings());
            case "load":
                load(words[1], Integer.parseInt(words[2]), Integer.parseInt(words[3]), new Recorder.Options().moments(), new HashMap<>());
                return "ok";
            case "rounds":
                Map<String, String> values = new HashMap<>();
                Recorder.Options every = new Recorder.Options().moments().rounds(Integer.parseInt(words[4]), (reads, writes) -> transact(values, reads, writes));
                load(words[1], Integer.parseInt(words[2]), Integer.parseInt(words[3]), every.patience(10, 3).durable(), values);
                return "ok";
            default:
                return of(TRANSACTIONS.get(words[1]), words);
        }
    }

    private static String of(Recorder.Transaction txn, String[] words) {
        switch (words[0]) {
            case "read":
                txn.read(bytes(words[2]), seen(words[3]), 0);
                break;
            case "before":
                txn.read(bytes(words[2]), seen(words[3]), identity(words[4]));
                break;
            case "write":
                IDENTITIES.put(words[3], txn.write(bytes(words[2])));
                return Long.toString(IDENTITIES.get(words[3]));
            case "refused":
                txn.refused(identity(words[2]));
                break;
            case "commit":
                txn.commit();
                break;
            case "abort":
                txn.abort();
                break;
            case "unknown":
                txn.unknown();
                break;
        }
        return "ok";
    }

    /** Fails now and then, and may have been done all the same. */
    private static long[] transact(Map<String, String> values, List<byte[]> reads, List<Recorder.Write> writes) throws IOException {
        int dice = new Random().nextInt(12);
        if (dice == 0)
            return null;
        if (dice == 1)
            throw new IOException("lost");
        long[] seen = new long[reads.size()];
        synchronized (values) {
            for (int place = 0; place < seen.length; place++)
                seen[place] = Recorder.identity(values.get(new String(reads.get(place))));
            for (Recorder.Write it : writes)
                values.put(new String(it.key), it.identity + " fence");
        }
        if (dice == 2)
            throw new IOException("lost");
        return seen;
    }

    /** Threads use a small store at once, in which a transaction holds all others back, but not while it begins and ends. */
    private static void load(String path, int threads, int count, Recorder.Options options, Map<String, String> values)
            throws IOException, InterruptedException {
        try (Recorder its = new Recorder(path, options)) {
            List<Thread> all = new ArrayList<>();
            for (int number = 0; number < threads; number++) {
                Random dice = new Random(number);
                all.add(new Thread(() -> {
                    try (Recorder.Session session = its.session()) {
                        for (int turn = 0; turn < count; turn++)
                            transaction(session, dice, values);
                    }
                }));
            }
            all.forEach(Thread::start);
            for (Thread it : all)
                it.join();
        }
    }

    private static void transaction(Recorder.Session session, Random dice, Map<String, String> values) {
        String key = "k" + dice.nextInt(5);
        Recorder.Transaction txn = session.begin("first " + key);
        Thread.yield();
        synchronized (values) {
            for (int operation = 0; operation < 3; operation++) {
                txn.read(key, Recorder.identity(values.get(key)));
                if (dice.nextBoolean())
                    values.put(key, txn.write(key) + " red");
                key = "k" + dice.nextInt(5);
            }
        }
        if (dice.nextInt(20) == 0)
            txn.unknown();
        else
            txn.commit();
    }

    public static void main(String[] arguments) throws IOException, InterruptedException {
        BufferedReader lines = new BufferedReader(new InputStreamReader(System.in));
        for (String line = lines.readLine(); line != null; line = lines.readLine()) {
            String answer;
            try {
                answer = act(line.split(" "));
            } catch (Recorder.Misuse fault) {
                answer = "misuse";
            }
            System.out.println(answer);
        }
    }
}
