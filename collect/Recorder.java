import java.io.BufferedReader;
import java.io.IOException;
import java.io.OutputStream;
import java.io.RandomAccessFile;
import java.nio.charset.StandardCharsets;
import java.nio.file.Files;
import java.nio.file.Path;
import java.nio.file.StandardCopyOption;
import java.security.MessageDigest;
import java.security.NoSuchAlgorithmException;
import java.util.*;
import java.util.function.LongSupplier;
import java.util.regex.Matcher;
import java.util.regex.Pattern;
import java.util.stream.Stream;

/**
 * Writes the log of a test for cobra_poly, as collect/recorder.py does: put this file beside your test. docs/COLLECTING.md says what must be in
 * a log, and why.
 *
 * <pre>{@code
 * try (Recorder run = new Recorder("run.log", new Recorder.Options())) {
 *     Recorder.Session session = run.session();                        // one for each client, which is a thread
 *     Recorder.Transaction txn = session.begin();                      // before its first statement is sent
 *     txn.read("stock/7", Recorder.identity(store.get("stock/7")));    // behind the answer; null where there was nothing
 *     long wid = txn.write("stock/7");                                 // before the statement: an identity to keep beside the value
 *     store.put("stock/7", wid + " red");
 *     txn.commit();                                                    // behind the store's answer; or abort(), or unknown()
 * }                                                                    // writes run.log
 * }</pre>
 *
 * A run that does not end is written in rounds, each a log by itself. A harness that does something of which no true log can be written hears it by a Misuse. Nothing of this is proved; it needs Java's own
 * classes alone, 8 or later.
 */
public final class Recorder implements AutoCloseable {
    /** An identity is a count times CLIENTS plus its client's number: its last three digits are the client. Of N processes that write one log
     * the K-th has every N-th count and every N-th session, from K on. */
    private static final int CLIENTS = 1000, MAX_SESSION = 65535;
    /** So many characters of a client may stand in memory before they go to its file. */
    private static final int BUFFER = 1 << 16;
    /** And for so many nanoseconds, as long as transactions end; or for longer, where files are slow, so that this takes some hundredth of the
     * time. */
    private static final long HELD = 1000000000, PAUSE = HELD / 50;
    /** The keeper opens and closes rounds, under this number of a session, by fences: keys that begin so. */
    private static final int KEEPER = MAX_SESSION;
    private static final String FENCE = "fence/";
    /** So many rounds a transaction of unknown outcome is carried into, as long as nobody reads what it wrote. */
    private static final int CARRIED = 10;
    /** What the store did not do at once is asked for again after so many milliseconds, and for so many times a client's patience. */
    private static final long AGAIN = 20, PATIENCE = 30;
    private static final Pattern ROUND_FILE = Pattern.compile("[0-9]{6,}\\.(?:log|log\\.labels|part)|1\\.lock|end");
    private static final Pattern LABEL = Pattern.compile("(?! *$)[ [^\\p{C}\\p{Cn}\\p{Z}]]+");
    private static final Pattern PLAIN_KEY = Pattern.compile("(?!hex:|sha:)[A-Za-z0-9_.:/-]{1,64}");
    private static final Pattern FIRST_WORD = Pattern.compile("([0-9]+)(?: (?s:.*))?");

    /** The harness does something of which no true log can be written. */
    public static final class Misuse extends IllegalStateException {
        Misuse(String form, Object... words) {
            super(String.format(form, words));
        }
    }

    /** The store does not show what it said to be committed, so no round can begin or end. */
    public static final class Unseen extends IllegalStateException {
        Unseen(String words) {
            super(words);
        }
    }

    /** A key, and the identity of a write of it. */
    public static final class Write {
        public final byte[] key;
        public final long identity;

        Write(byte[] key, long identity) {
            this.key = key;
            this.identity = identity;
        }
    }

    /** Runs one transaction of the recorder's own, which reads these keys, writes these, and is committed. It gives back the identities that it read,
     * in this order, or null where it was rolled back; behind an exception nobody knows. Where its connection is gone, it connects anew. */
    public interface Transact {
        long[] run(List<byte[]> reads, List<Write> writes) throws Exception;
    }

    /** What a recorder may be told, of which all may be absent. */
    public static final class Options {
        private boolean moments, overwrite;
        private int first = 1, all = 1;
        private boolean isShared;
        private LongSupplier clock;
        private boolean durable;
        private int rounds, bound = 1000;
        private Transact transact;
        private double patience = 10;

        /** What a client writes is in its file before the store hears of it: a harness that is killed loses nothing that another client could have
         * read. */
        public Options durable() {
            durable = true;
            return this;
        }

        /** For a run of any length: behind so many transactions of all clients together they pause, and go on in a new round, which is a log by
         * itself; the path is the folder of these logs. `its` is called in the thread of a client whose session has none of its own, and in one
         * of the recorder's. */
        public Options rounds(int every, Transact its) {
            if (every < 1 || its == null)
                throw new Misuse("rounds are made by transactions of the recorder: each of so many, from 1, and a Transact");
            rounds = every;
            transact = its;
            return this;
        }

        /** How many seconds rounds wait for a client, whose transaction is unknown then, 10 where it is not given; and how many keys the recorder
         * reads in one transaction, 1000 where it is not given. */
        public Options patience(double seconds, int keys) {
            if (keys < 1)
                throw new Misuse("a transaction reads one key at least");
            patience = seconds;
            bound = keys;
            return this;
        }

        /** The log says when each transaction began and was committed, for a store that promises strict serializability. */
        public Options moments() {
            moments = true;
            return this;
        }

        /** A file that stands at the path may be replaced. */
        public Options overwrite() {
            overwrite = true;
            return this;
        }

        /** This is the K-th of N processes that write one log, each to a path of its own; join.py joins them. */
        public Options share(int k, int n) {
            if (k < 1 || k > n || n > MAX_SESSION)
                throw new Misuse("a share is K, N for the K-th of N processes, and not %d, %d", k, n);
            first = k;
            all = n;
            isShared = true;
            return this;
        }

        /** Numbers that never fall: microseconds since now where it is not given, and of a share clockOfDay. */
        public Options clock(LongSupplier its) {
            clock = its;
            return this;
        }
    }

    /** Microseconds since 1970, by this machine's clock. */
    public static long clockOfDay() {
        java.time.Instant now = java.time.Instant.now();
        return now.getEpochSecond() * 1000000 + now.getNano() / 1000;
    }

    /** The log's word for a key: its own bytes where a log has these, else "hex:" and its bytes in hexadecimal, or "sha:" and a part of their
     * SHA-256. No two keys have one name, where text is its bytes in UTF-8. */
    public static String name(byte[] key) {
        String plain = new String(key, StandardCharsets.ISO_8859_1);
        if (PLAIN_KEY.matcher(plain).matches())
            return plain;
        if (key.length <= 30)
            return "hex:" + hexadecimal(key);
        try {
            return "sha:" + hexadecimal(MessageDigest.getInstance("SHA-256").digest(key)).substring(0, 60);
        } catch (NoSuchAlgorithmException fault) {
            throw new IllegalStateException(fault);
        }
    }

    public static String name(String key) {
        return name(bytes(key));
    }

    private static String hexadecimal(byte[] bytes) {
        StringBuilder text = new StringBuilder();
        for (byte it : bytes)
            text.append(String.format("%02x", it));
        return text.toString();
    }

    /** A text in UTF-8; a half of a pair, which has no place there, has one of its own, so that no two texts have the same bytes. */
    private static byte[] bytes(String text) {
        java.io.ByteArrayOutputStream out = new java.io.ByteArrayOutputStream();
        text.codePoints().forEach(it -> {
            if (it >= 0xd800 && it < 0xe000) {
                out.write(0xe0 | it >> 12);
                out.write(0x80 | it >> 6 & 63);
                out.write(0x80 | it & 63);
            } else {
                byte[] its = new String(Character.toChars(it)).getBytes(StandardCharsets.UTF_8);
                out.write(its, 0, its.length);
            }
        });
        return out.toByteArray();
    }

    /** The identity with which a text begins that a store gave back, as a number without a sign; 0 where there was nothing. */
    public static long identity(String text) {
        if (text == null)
            return 0;
        Matcher word = FIRST_WORD.matcher(text);
        try {
            if (word.matches())
                return Long.parseUnsignedLong(word.group(1));
        } catch (NumberFormatException fault) {
            // too large
        }
        throw new Misuse("a value begins with its identity, and not as '%s'", text);
    }

    private final Path path;
    private Path folder;
    private final Options options;
    private final LongSupplier clock;
    // All that follows is read and changed by one thread at a time.
    private final List<Part> parts = new ArrayList<>();
    private final Deque<Part> idle = new ArrayDeque<>();
    private final Set<Transaction> open = new LinkedHashSet<>();
    private final Map<String, Integer> counts = new HashMap<>();
    private final List<String> leftOpen = new ArrayList<>(), labels = new ArrayList<>();
    private long last;
    private int number;
    private String strange;
    private boolean closed;
    private List<String> warnings;
    // Of rounds: the one that goes on; what keys hold behind the last closing; transactions of unknown outcome that nobody read yet; by how much
    // the fences of a session have other keys; sessions that have numbers, and these; parts that wait for the end of the round.
    private Round round;
    private final Map<String, Long> held = new HashMap<>();
    private List<Unlearnt> carried = new ArrayList<>();
    private final Map<Integer, Integer> worn = new HashMap<>();
    private final Set<Session> sessions = new HashSet<>();
    private Set<Integer> taken = new HashSet<>();
    private final List<Part> late = new ArrayList<>();
    private final List<String> dropped = new ArrayList<>();
    private Part fences;
    private Thread keeper;
    private Throwable fault;
    private int lastRound;
    private long due = System.nanoTime() + HELD;
    private int turns;

    /** The recorder of a run, whose log is to stand at this path. */
    public Recorder(String path, Options options) throws IOException {
        this.path = new java.io.File(path).toPath().toAbsolutePath();
        this.options = options;
        long began = System.nanoTime();
        LongSupplier alone = () -> (System.nanoTime() - began) / 1000;
        clock = options.clock != null ? options.clock : options.isShared ? Recorder::clockOfDay : alone;
        checkFreePath("");
        number = options.first - options.all;
        if (options.rounds > 0) {
            if (options.isShared)
                throw new Misuse("rounds are those of one process: they go without a share");
            beginRounds();
            return;
        }
        folder = Files.createTempDirectory(this.path.getParent(), this.path.getFileName() + ".");
    }

    private void checkFreePath(String told) throws IOException {
        boolean isFree = !Files.exists(path) || (Files.isRegularFile(path) && Files.size(path) == 0 && options.rounds == 0);
        if (!isFree && Files.isDirectory(path) && options.rounds > 0) {
            try (Stream<Path> names = Files.list(path)) {
                isFree = !names.findAny().isPresent();
            }
        }
        if (!options.overwrite && !isFree)
            throw new Misuse("%s is there already, and may be a log that is still needed: take another name, or overwrite()%s", path, told);
    }

    /** One client, which does one thing after the other. */
    public Session session() {
        return session(null);
    }

    /** The same; in rounds its own Transact is called in place of the recorder's for it, in its thread: on its connection. */
    public synchronized Session session(Transact transact) {
        checkOpen();
        if (idle.isEmpty()) {
            if (parts.size() == CLIENTS - 1)
                throw new Misuse("more than %d sessions at once: leave a session when its client ends", parts.size());
            parts.add(new Part(parts.size() + 1));
            idle.push(parts.get(parts.size() - 1));
        }
        return new Session(idle.pop(), transact == null ? options.transact : transact);
    }

    /** Writes the log, and says on standard error what makes it worth little. A transaction that is still open ends as unknown. */
    @Override
    public synchronized void close() throws IOException {
        if (warnings != null)
            return;
        closed = true;
        for (Transaction txn : new ArrayList<>(open))
            cutOff(txn);
        if (options.rounds > 0)
            endRounds();
        else
            join();
        warnings = worthLittle();
        for (String text : warnings)
            System.err.println("recorder: " + path + ": " + text);
    }

    /** What makes the log worth little, once it is closed; nothing before. */
    public synchronized List<String> warnings() {
        return warnings == null ? Collections.emptyList() : warnings;
    }

    private void join() throws IOException {
        Path joined = folder.resolve("log");
        try (OutputStream out = Files.newOutputStream(joined)) {
            out.write("log 3\n".getBytes(StandardCharsets.US_ASCII));
            for (Part part : parts) {
                part.flush(Collections.emptyList());
                Files.copy(part.path, out);
            }
        }
        checkFreePath("; this run is in " + joined);
        Files.move(joined, path, StandardCopyOption.REPLACE_EXISTING, StandardCopyOption.ATOMIC_MOVE);
        if (options.overwrite)
            Files.deleteIfExists(labelsOf(path)); // of the log that stood there
        writeLabels(path, labels);
        delete(folder);
    }

    private static Path labelsOf(Path log) {
        return log.resolveSibling(log.getFileName() + ".labels");
    }

    private static void writeLabels(Path log, List<String> labels) throws IOException {
        if (!labels.isEmpty())
            Files.write(labelsOf(log), String.join("", labels).getBytes(StandardCharsets.UTF_8));
    }

    private static void addLabel(List<String> labels, String name, String label) {
        if (label != null)
            labels.add(name.replace('.', ' ') + " " + label + "\n");
    }

    private static void delete(Path its) throws IOException {
        if (Files.isDirectory(its))
            try (Stream<Path> left = Files.list(its)) {
                for (Path it : (Iterable<Path>) left::iterator)
                    delete(it);
            }
        Files.delete(its);
    }

    private int count(String name) {
        return counts.getOrDefault(name, 0);
    }

    private void add(String name, int more) {
        counts.merge(name, more, Integer::sum);
    }

    private List<String> worthLittle() {
        List<String> found = new ArrayList<>();
        int ended = count("commit") + count("abort") + count("unknown");
        if (count("commit") == 0)
            found.add("no transaction was committed, so there is nothing to judge");
        else if (options.isShared)
            ; // where clients meet, the other processes may tell
        else if (count("sessions") < 2)
            found.add("there is one session alone: a fault shows where clients meet");
        else if (count("reads") == 0)
            found.add("no read names a write, so few faults can be seen: read keys that others write");
        else if (count("reads of others") == 0)
            found.add("no client read what another one wrote: let them use the same keys, fewer of them");
        else if (count("overlaps") == 0)
            found.add("no two transactions were open at once, so nothing was at risk: let the clients run side by side, with pauses");
        if (ended > 10 && count("abort") * 10L > ended * 9L)
            found.add(count("abort") + " of " + ended + " transactions were aborted");
        if (count("unknown") > 10 && count("unknown") * 10L > ended)
            found.add("of " + ended + " transactions " + count("unknown") + " have an unknown outcome: faults that need a true one go unseen");
        if (strange != null)
            found.add(strange + ", which nobody wrote in this run: the keys must be empty before it, and each value keep its identity");
        if (count("late") > 0)
            found.add(count("late") + " times a fence of a round was not seen at once: the store shows late what it committed, and keeps no strict level");
        if (count("waited for") > 0)
            found.add(count("waited for") + " times a client did not come to the end of a round within " + options.patience
                    + " seconds, and the recorder wrote its fence");
        String unread = "what %d transactions of unknown outcome wrote was read by nobody%s: %s";
        if (count("dropped") > 0)
            found.add(String.format(unread, count("dropped"), " in " + CARRIED + " rounds, so they are carried no more", String.join(", ", dropped)));
        if (!carried.isEmpty()) {
            List<String> names = new ArrayList<>();
            for (Unlearnt it : carried.subList(0, Math.min(10, carried.size())))
                names.add(it.name);
            found.add(String.format(unread, carried.size(), "", String.join(", ", names)));
        }
        if (!leftOpen.isEmpty())
            found.add("transactions were open when their thread or the run ended, and are unknown: "
                    + String.join(", ", leftOpen.subList(0, Math.min(10, leftOpen.size()))));
        return found;
    }

    private void checkOpen() {
        if (closed)
            throw new Misuse("the recorder is closed: let all clients end before close()");
    }

    /** A reading of the clock, greater than each one before. Where other processes read it too, a beginning is not said to be later than it
     * was, and an end not to be earlier. */
    private long moment(boolean isEnd) {
        long now = clock.getAsLong();
        if (options.isShared) {
            last = Math.max(last, now + 1);
            return isEnd ? last : now;
        }
        last = Math.max(last + 1, now);
        return last;
    }

    private String lineOfBegin() {
        return options.moments ? "begin " + moment(false) + "\n" : "begin\n";
    }

    private String lineOfEnd(String outcome) {
        return outcome.equals("commit") && options.moments ? "commit " + moment(true) + "\n" : outcome + "\n";
    }

    /** A session's number that nobody has; in rounds nobody of this one. */
    private int nextNumber() {
        int next = number + options.all;
        while (taken.contains(next))
            next += options.all;
        if (next > MAX_SESSION - (options.rounds > 0 ? 1 : 0))
            throw new Misuse("a log has at most %d sessions, those of all processes together", MAX_SESSION);
        add("sessions", 1);
        return number = next;
    }

    /** Nobody waits for this one any longer. */
    private void cutOff(Transaction txn) {
        leftOpen.add(txn.name);
        txn.isCutOff = options.rounds > 0;
        txn.end("unknown");
    }

    // What follows is of rounds. The keeper is a thread of its own, which opens and closes them; clients read and write fences in theirs. What waits
    // for the store is called without the lock.

    private interface Act {
        void run(Session session);
    }

    /** A transaction of unknown outcome: its name, its label, the round in which it began, its lines but for the last, and its keys. */
    private static final class Unlearnt {
        final String name, label, begin;
        final int round;
        final List<String> lines;
        final Map<String, byte[]> keys;

        Unlearnt(Transaction txn, int round) {
            name = String.format("%06d: %s", round, txn.name);
            label = txn.label;
            this.round = round;
            begin = txn.lines.get(0);
            lines = new ArrayList<>(txn.lines.subList(1, txn.lines.size()));
            keys = txn.keys;
        }

        /** Its lines in a session of its own, where it has read the fence first; behind the round in which it began its writes alone. */
        String text(int session, String line, boolean isCarried) {
            StringBuilder text = new StringBuilder("session " + session + "\n" + (isCarried ? "begin\n" : begin) + line);
            for (String its : lines)
                if (its.charAt(0) == 'w' || !isCarried)
                    text.append(its);
            return text + "unknown\n";
        }
    }

    /** What is known of a round: whether clients may begin and whether they have to end it, the keeper's fence, the keys that were written in it and
     * the names that were read, who has come into it, the fences that its clients left, labels, and what ended unknown. */
    private static final class Round {
        final int number;
        boolean isOpen, isDue;
        int ended, committed;
        String fence;
        long identity;
        List<String> keeper;
        final List<String> labels = new ArrayList<>();
        final Map<String, byte[]> keys = new HashMap<>();
        final Set<String> seen = new HashSet<>();
        final Map<Session, Part> come = new LinkedHashMap<>();
        final Set<Integer> numbers = new HashSet<>();
        final Map<String, Long> fences = new LinkedHashMap<>();
        final List<Unlearnt> unknown = new ArrayList<>();

        Round(int number) {
            this.number = number;
        }

        String line() {
            return "r " + fence + " " + identity + "\n";
        }
    }

    /** The fence of a session: its key, its identity and its lines. */
    private static final class Fence {
        String key;
        long identity;
        List<String> lines;
    }

    private void beginRounds() throws IOException {
        Files.createDirectories(path);
        try (Stream<Path> names = Files.list(path)) {
            for (Path it : (Iterable<Path>) names::iterator)
                if (ROUND_FILE.matcher(it.getFileName().toString()).matches())
                    delete(it);
        }
        folder = path;
        fences = new Part(0);
        beginRound(1);
        keeper = new Thread(this::keep, "keeper of rounds");
        keeper.setDaemon(true);
        keeper.start();
    }

    private void beginRound(int next) throws IOException {
        round = new Round(next);
        folder = path.resolve(String.format("%06d.part", next));
        Files.createDirectory(folder);
        parts.forEach(Part::move);
        fences.move();
        number = options.first - options.all;
        taken = new HashSet<>();
        for (Session it : sessions)
            taken.add(it.number);
        idle.addAll(late);
        late.clear();
    }

    private void keep() {
        try {
            for (;;) {
                openRound();
                Round its;
                Path at;
                synchronized (this) {
                    while (!round.isDue && !closed)
                        rest(1000);
                    its = round;
                    at = folder;
                    its.isDue = true;
                }
                gather(its);
                List<Unlearnt> unknown = new ArrayList<>(carried);
                boolean isRead;
                synchronized (this) {
                    unknown.addAll(its.unknown);
                    isRead = its.committed > 0 || !closed;
                }
                Map<String, Long> reads = new LinkedHashMap<>();
                List<List<String>> closings = isRead ? readClosing(its, unknown, reads) : null;
                boolean isLast;
                List<Path> paths = new ArrayList<>();
                synchronized (this) {
                    for (Part part : parts) {
                        part.flush(Collections.emptyList());
                        paths.add(part.path);
                    }
                    isLast = closed;
                    if (!isLast)
                        beginRound(its.number + 1);
                }
                // what became known of the round is written while the next one goes on
                if (!isLast)
                    openRound();
                writeRound(its, at, paths, closings, reads, unknown);
                if (isLast)
                    return;
            }
        } catch (Throwable thrown) {
            synchronized (this) {
                fault = thrown;
                notifyAll();
            }
        }
    }

    private void rest(long most) {
        try {
            wait(most);
        } catch (InterruptedException interrupted) {
            throw new IllegalStateException(interrupted);
        }
    }

    private void endRounds() throws IOException {
        notifyAll();
        while (keeper.isAlive())
            rest(5);
        if (fault instanceof IOException)
            throw (IOException) fault;
        checkFault();
        Files.write(path.resolve("end"), (lastRound + "\n").getBytes(StandardCharsets.US_ASCII));
    }

    private void checkFault() {
        if (fault instanceof RuntimeException)
            throw (RuntimeException) fault;
        if (fault != null)
            throw new IllegalStateException(fault);
    }

    /** What a client has to do before it may begin; waits for a round. */
    private Act nextAct(Session session) {
        for (Transaction txn : open)
            if (txn.thread == Thread.currentThread())
                throw new Misuse("one thread has transactions of two sessions open, and would wait for itself at the end of a round: give each "
                        + "client a thread of its own");
        for (;;) {
            session.checkFree();
            checkFault();
            if (round.isOpen && !round.isDue)
                return session.come == round ? null : this::comeIn;
            if (session.come == round && session.left != round)
                return this::leaveRound;
            rest(1000);
        }
    }

    /** What a transaction of the recorder's read; null where it was rolled back. An exception says that nobody knows. */
    private long[] ask(Transact transact, List<byte[]> reads, List<Write> writes) throws Exception {
        long[] seen = transact.run(reads, writes);
        if (seen != null && seen.length != reads.size())
            throw new Misuse("a Transact gives back what it read, one for each of %d keys, and not %d", reads.size(), seen.length);
        return seen;
    }

    /** Goes on for as long as the store may need. */
    private final class Tries {
        private final long began = System.nanoTime();
        private final String what;
        private long pause = AGAIN;

        Tries(String what) {
            this.what = what;
        }

        /** Called behind a try that failed, without the lock. */
        void next(Exception thrown) {
            if (thrown instanceof Misuse)
                throw (Misuse) thrown;
            synchronized (Recorder.this) {
                long late = System.nanoTime() + pause * 1000000;
                for (long left = pause; left > 0; left = (late - System.nanoTime()) / 1000000)
                    rest(left);
                pause = Math.min(2 * pause, 1000);
                double passed = (System.nanoTime() - began) / 1e9;
                if (passed > (closed ? Math.max(options.patience, 10) : options.patience * PATIENCE))
                    throw new Unseen(what + ", for " + (long) passed + " seconds");
            }
        }
    }

    private void wear(int its) {
        worn.merge(its, 2, (had, one) -> had + 1);
    }

    /** Writes the fence of a session; null where that is over. A fence of which nobody knows whether it was written is written no more: it has another
     * key from then on. */
    private Fence putFence(int its, Part part, Transact transact, java.util.function.BooleanSupplier isOver) {
        Tries tries = new Tries("the store commits no fence of session " + its);
        for (;;) {
            Fence fence = new Fence();
            String begin;
            synchronized (this) {
                if (isOver.getAsBoolean())
                    return null;
                fence.key = FENCE + its + (worn.containsKey(its) ? "." + worn.get(its) : "");
                fence.identity = part.identity();
                begin = lineOfBegin();
            }
            Exception thrown = null;
            try {
                long[] seen = ask(transact, Collections.emptyList(), Collections.singletonList(new Write(bytes(fence.key), fence.identity)));
                if (seen != null)
                    synchronized (this) {
                        fence.lines = Arrays.asList(begin, "w " + fence.key + " " + fence.identity + "\n", lineOfEnd("commit"));
                        return fence;
                    }
            } catch (Exception unlearnt) {
                thrown = unlearnt;
                synchronized (this) {
                    wear(its);
                }
            }
            tries.next(thrown);
        }
    }

    private void openRound() throws IOException {
        if (round.isOpen)
            return;
        Fence fence = putFence(KEEPER, fences, options.transact, () -> false);
        synchronized (this) {
            round.fence = fence.key;
            round.identity = fence.identity;
            round.keeper = fence.lines;
            if (options.durable) {
                List<String> lines = new ArrayList<>(fence.lines);
                lines.add(0, "session " + KEEPER + "\n");
                fences.flush(lines);
            }
            round.isOpen = true;
            notifyAll();
        }
    }

    /** A client reads the keeper's fence, until it sees it, and is in the round. */
    private void comeIn(Session session) {
        Round its;
        synchronized (this) {
            its = round;
            if (!its.isOpen)
                return;
        }
        Tries tries = new Tries("session " + session.number + " does not see the fence of round " + its.number);
        for (;;) {
            String begin;
            synchronized (this) {
                begin = lineOfBegin();
            }
            long[] seen = null;
            Exception thrown = null;
            try {
                seen = ask(session.transact, Collections.singletonList(bytes(its.fence)), Collections.emptyList());
            } catch (Exception unlearnt) {
                thrown = unlearnt;
            }
            synchronized (this) {
                if (round != its || its.isDue || fault != null)
                    return;
                if (seen != null && seen[0] == its.identity) {
                    String end = lineOfEnd("commit");
                    if (session.number == 0)
                        session.number = nextNumber();
                    sessions.add(session);
                    session.come = its;
                    session.place = 1;
                    session.part.put(Arrays.asList("session " + session.number + "\n", begin, its.line(), end));
                    its.come.put(session, session.part);
                    its.numbers.add(session.number);
                    return;
                }
                add("late", seen == null ? 0 : 1);
            }
            tries.next(thrown);
        }
    }

    /** A client writes its fence, as its last transaction of the round, if it came into it. */
    private void leaveRound(Session session) {
        Round its = session.come;
        java.util.function.BooleanSupplier isOver = () -> its == null || session.left == its || round != its || closed || fault != null;
        Fence fence = putFence(session.number, session.part, session.transact, isOver);
        synchronized (this) {
            if (fence != null && !isOver.getAsBoolean())
                hasLeft(session, its, fence);
        }
    }

    private void hasLeft(Session session, Round its, Fence fence) {
        its.come.get(session).put(fence.lines);
        its.fences.put(fence.key, fence.identity);
        session.left = its;
        notifyAll();
    }

    /** Waits until each client has left the round; for one that does not come the keeper writes its fence. */
    private void gather(Round its) {
        long began = System.nanoTime();
        List<Session> waiting = new ArrayList<>();
        synchronized (this) {
            for (;;) {
                for (Transaction txn : new ArrayList<>(open))
                    if (!txn.thread.isAlive())
                        cutOff(txn);
                waiting.clear();
                for (Session session : its.come.keySet())
                    if (session.left != its)
                        waiting.add(session);
                if (waiting.isEmpty() || closed || System.nanoTime() - began > options.patience * 1e9)
                    break;
                rest(20);
            }
            for (Session session : waiting) {
                add("waited for", closed ? 0 : 1);
                if (session.txn != null)
                    cutOff(session.txn);
                // its own try may still be under way
                session.left = its;
                wear(session.number);
            }
        }
        for (Session session : waiting) {
            Fence fence = putFence(session.number, fences, options.transact, () -> false);
            synchronized (this) {
                hasLeft(session, its, fence);
            }
        }
    }

    private void endInRound(Transaction txn) {
        Round its = round;
        if (txn.outcome.equals("unknown")) {
            // it stands in a session of its own, and its client goes on in the old one
            txn.unlearnt = new Unlearnt(txn, its.number);
            its.unknown.add(txn.unlearnt);
            txn.session.place--;
            if (options.durable)
                try {
                    keepUnknown(its, txn.unlearnt, false);
                } catch (IOException fault) {
                    // the log of the round has it all the same
                }
        } else
            addLabel(its.labels, txn.name, txn.label);
        if (txn.outcome.equals("commit")) {
            its.committed++;
            its.seen.addAll(txn.looked);
        }
        its.keys.putAll(txn.keys);
        its.ended++;
        if (its.ended >= options.rounds && !its.isDue) {
            its.isDue = true;
            notifyAll();
        }
    }

    private void keepUnknown(Round its, Unlearnt it, boolean isCarried) throws IOException {
        Files.write(folder.resolve("unknown"), it.text(nextNumber(), its.line(), isCarried).getBytes(StandardCharsets.US_ASCII),
                java.nio.file.StandardOpenOption.CREATE, java.nio.file.StandardOpenOption.APPEND);
    }

    /** Reads the fences that clients left, and what the keys of the round hold: the closing's transactions, and what they read last. Where one shows a
     * transaction of unknown outcome, what that wrote is read behind it. */
    private List<List<String>> readClosing(Round its, List<Unlearnt> unknown, Map<String, Long> reads) {
        Map<String, byte[]> keys = new TreeMap<>(its.keys);
        Map<String, Unlearnt> writes = new HashMap<>();
        synchronized (this) {
            for (Unlearnt it : unknown) {
                keys.putAll(it.keys);
                for (String line : it.lines)
                    if (line.charAt(0) == 'w')
                        writes.put(line.substring(2), it);
            }
        }
        List<String> asked = new ArrayList<>(its.fences.keySet());
        asked.addAll(keys.keySet());
        for (String fence : its.fences.keySet())
            keys.put(fence, bytes(fence));
        Set<Unlearnt> behind = new HashSet<>();
        List<List<String>> closings = new ArrayList<>();
        for (int place = 0; place < asked.size() || closings.isEmpty();) {
            int end = Math.min(asked.size(), place + options.bound);
            List<String> some = new ArrayList<>(asked.subList(place, end)), earlier = new ArrayList<>(asked.subList(0, place));
            place = end;
            List<String> lines = readOnce(its, some, keys, reads);
            closings.add(lines);
            for (String name : some) {
                Unlearnt it = writes.get(name + " " + Long.toUnsignedString(reads.get(name)) + "\n");
                if (it != null && behind.add(it))
                    for (String before : earlier)
                        if (it.keys.containsKey(before))
                            asked.add(before);
            }
        }
        reads.keySet().removeAll(its.fences.keySet());
        return closings;
    }

    private List<String> readOnce(Round its, List<String> some, Map<String, byte[]> keys, Map<String, Long> reads) {
        Tries tries = new Tries("the fences of round " + its.number + " are not seen");
        List<byte[]> asked = new ArrayList<>();
        for (String name : some)
            asked.add(keys.get(name));
        for (;;) {
            List<String> lines = new ArrayList<>();
            synchronized (this) {
                lines.add(lineOfBegin());
            }
            long[] seen = some.isEmpty() ? new long[0] : null;
            Exception thrown = null;
            try {
                seen = some.isEmpty() ? seen : ask(options.transact, asked, Collections.emptyList());
            } catch (Exception unlearnt) {
                thrown = unlearnt;
            }
            if (seen != null) {
                boolean isSeen = true;
                for (int place = 0; place < seen.length; place++) {
                    isSeen = isSeen && its.fences.getOrDefault(some.get(place), seen[place]) == seen[place];
                    lines.add("r " + some.get(place) + " " + Long.toUnsignedString(seen[place]) + "\n");
                }
                synchronized (this) {
                    if (isSeen) {
                        for (int place = 0; place < seen.length; place++)
                            reads.put(some.get(place), seen[place]);
                        lines.add(lineOfEnd("commit"));
                        return lines;
                    }
                    add("late", 1);
                }
            }
            tries.next(thrown);
        }
    }

    /** Writes the log of a round that has ended, and finds which transactions of unknown outcome took part in it. */
    private void writeRound(Round its, Path at, List<Path> paths, List<List<String>> closings, Map<String, Long> reads, List<Unlearnt> unknown)
            throws IOException {
        Set<Unlearnt> took = takenIn(paths, closings, its, unknown);
        synchronized (this) {
            carried = new ArrayList<>();
            for (Unlearnt it : unknown) {
                if (!took.contains(it) && it.round <= its.number - CARRIED) {
                    add("dropped", 1);
                    if (dropped.size() < 10)
                        dropped.add(it.name);
                } else if (!took.contains(it))
                    carried.add(it);
                else if (it.round == its.number)
                    for (String line : it.lines)
                        if (line.charAt(0) == 'r')
                            its.seen.add(line.split(" ")[1]);
            }
        }
        if (closings != null) {
            its.seen.addAll(reads.keySet());
            StringBuilder text = new StringBuilder("log 3\nsession " + KEEPER + "\n" + its.keeper.get(0));
            for (String name : new TreeSet<>(its.seen))
                if (held.getOrDefault(name, 0L) != 0)
                    text.append("w " + name + " " + Long.toUnsignedString(held.get(name)) + "\n");
            its.keeper.subList(1, its.keeper.size()).forEach(text::append);
            for (List<String> lines : closings)
                lines.forEach(text::append);
            Path made = at.resolve("log");
            try (OutputStream out = Files.newOutputStream(made)) {
                out.write(text.toString().getBytes(StandardCharsets.US_ASCII));
                for (Path from : paths)
                    if (Files.exists(from))
                        Files.copy(from, out);
                int next = 0;
                for (Unlearnt it : unknown)
                    if (took.contains(it)) {
                        do
                            next++;
                        while (its.numbers.contains(next));
                        out.write(it.text(next, its.line(), it.round < its.number).getBytes(StandardCharsets.US_ASCII));
                        addLabel(its.labels, next + ".1", it.label);
                    }
            }
            Path log = path.resolve(String.format("%06d.log", its.number));
            writeLabels(log, its.labels);
            Files.move(made, log, StandardCopyOption.ATOMIC_MOVE);
            lastRound = its.number;
        }
        held.putAll(reads);
        delete(at);
        synchronized (this) {
            // a client that idles knows the round that it left, which must not know those who go on
            its.come.clear();
            if (options.durable && round != its)
                for (Unlearnt it : carried)
                    keepUnknown(round, it, true);
        }
    }

    /** Those of these transactions of which a committed one of the round read a write, or one that is taken itself. */
    private static Set<Unlearnt> takenIn(List<Path> paths, List<List<String>> closings, Round its, List<Unlearnt> unknown) throws IOException {
        Map<String, Unlearnt> wanted = new HashMap<>();
        for (Unlearnt it : unknown)
            for (String line : it.lines)
                if (line.charAt(0) == 'w')
                    wanted.put("r" + line.substring(1, line.length() - 1), it);
        Set<Unlearnt> took = new LinkedHashSet<>();
        Deque<Unlearnt> found = new ArrayDeque<>();
        if (wanted.isEmpty())
            return took;
        if (closings != null)
            for (List<String> lines : closings)
                for (String line : lines)
                    if (wanted.containsKey(line.trim()))
                        found.add(wanted.get(line.trim()));
        for (Path path : paths) {
            if (!Files.exists(path))
                continue;
            List<Unlearnt> some = new ArrayList<>();
            try (BufferedReader lines = Files.newBufferedReader(path, StandardCharsets.US_ASCII)) {
                for (String line = lines.readLine(); line != null; line = lines.readLine()) {
                    Unlearnt it = wanted.get(line);
                    if (it != null)
                        some.add(it);
                    else if (line.startsWith("commit") || line.equals("abort")) {
                        if (line.startsWith("commit"))
                            found.addAll(some);
                        some.clear();
                    }
                }
            }
        }
        while (!found.isEmpty()) {
            Unlearnt it = found.pop();
            if (took.add(it) && it.round == its.number)
                for (String line : it.lines)
                    if (wanted.containsKey(line.trim()))
                        found.add(wanted.get(line.trim()));
        }
        return took;
    }

    /** One client's part of the log: a file, the lines that are not in it yet, and how many identities this client has given out. */
    private final class Part {
        final int number;
        Path path;
        final StringBuilder lines = new StringBuilder();
        long size;
        int writes;

        Part(int number) {
            this.number = number;
            move();
        }

        /** What comes goes to a file of the recorder's folder. */
        void move() {
            path = folder.resolve(Integer.toString(number));
            size = 0;
        }

        long identity() {
            writes++;
            return ((writes - 1L) * options.all + options.first) * CLIENTS + number;
        }

        /** The how manyth identity of this client it is, or 0 where it is none. */
        long countOf(long wid) {
            long count = Long.divideUnsigned(wid, CLIENTS) - options.first;
            boolean isOther = Long.remainderUnsigned(wid, CLIENTS) != number || count < 0 || count % options.all != 0;
            return isOther ? 0 : count / options.all + 1;
        }

        /** Puts lines into the file, and behind them those of a transaction that is still open, which the next call writes anew. Where an earlier
         * write failed midway, it is made again; what stands there is never gone in between. */
        void flush(List<String> open) throws IOException {
            try (RandomAccessFile file = new RandomAccessFile(path.toFile(), "rw")) {
                byte[] data = (lines + String.join("", open)).getBytes(StandardCharsets.US_ASCII);
                file.seek(size);
                file.write(data);
                file.setLength(size + data.length);
                size += lines.length();
                lines.setLength(0);
            }
        }

        void tryToFlush(List<String> open) {
            try {
                flush(open);
            } catch (IOException fault) {
                // what cannot be written stays in memory, and close() tells where it still cannot be
            }
        }

        void put(List<String> more) {
            more.forEach(lines::append);
        }
    }

    /** One client, which does one thing after the other. Its number in the log is 0 until it begins a transaction, and behind one of an
     * unknown outcome, where it goes on under a new one. */
    public final class Session implements AutoCloseable {
        private Part part;
        private Transaction txn;
        private int number, place;
        private final int firstWrite;
        private final Transact transact;
        // of rounds: the last one that it came into, and the last one that it left
        private Round come, left;

        private Session(Part part, Transact transact) {
            this.part = part;
            this.transact = transact;
            firstWrite = part.writes + 1;
        }

        public int number() {
            return number;
        }

        /** Begins a transaction: before its first statement is sent. */
        public Transaction begin() {
            return begin(null);
        }

        /** The same; the label says on a line what it is for, beside the log in a file of its own. */
        public Transaction begin(String label) {
            if (label != null && !LABEL.matcher(label).matches())
                throw new Misuse("a label is a printable text on one line, and not '%s'", label);
            for (;;) {
                Act act;
                synchronized (Recorder.this) {
                    checkFree();
                    act = options.rounds > 0 ? nextAct(this) : null;
                    if (act == null)
                        return begun(label);
                }
                act.run(this);
            }
        }

        private void checkFree() {
            checkOpen();
            if (part == null)
                throw new Misuse("this session is closed: each client opens one of its own");
            if (txn != null)
                throw new Misuse("%s is still open: end it first; clients that run at once have a session each", txn.name);
        }

        private Transaction begun(String label) {
            List<String> lines = new ArrayList<>();
            if (number == 0) {
                number = nextNumber();
                place = 0;
                lines.add("session " + number + "\n");
            }
            place++;
            lines.add(lineOfBegin());
            add("overlaps", open.isEmpty() ? 0 : 1);
            txn = new Transaction(this, number + "." + place, label, lines);
            open.add(txn);
            return txn;
        }

        /** The client leaves; a transaction that is open ends as unknown. */
        @Override
        public void close() {
            synchronized (Recorder.this) {
                if (txn != null)
                    cutOff(txn);
                if (part == null)
                    return;
            }
            try {
                if (options.rounds > 0)
                    leaveRound(this);
            } finally {
                synchronized (Recorder.this) {
                    sessions.remove(this);
                    // another client may have its part; in rounds not before its fence stands there
                    if (come != null && come == round && left != round)
                        late.add(part);
                    else
                        idle.push(part);
                    part = null;
                }
            }
        }
    }

    /** What one transaction did. */
    public final class Transaction {
        private final Session session;
        private final String name, label;
        private final List<String> lines;
        private final Map<Long, String> written = new HashMap<>();
        private final Map<String, Long> reads = new HashMap<>();
        private String outcome;
        // of rounds: the keys of its writes, the names that it read, its thread, and what nobody waits for any longer
        private final Map<String, byte[]> keys = new HashMap<>();
        private final Set<String> looked = new HashSet<>();
        private final Thread thread = Thread.currentThread();
        private boolean isCutOff;
        private Unlearnt unlearnt;

        private Transaction(Session session, String name, String label, List<String> lines) {
            this.session = session;
            this.name = name;
            this.label = label;
            this.lines = lines;
        }

        /** Its name in the log: SESSION.PLACE. */
        public String name() {
            return name;
        }

        /** null while it is open, then "commit", "abort" or "unknown". */
        public String outcome() {
            return outcome;
        }

        /** It read the key, and saw the write of this identity: 0 where there was nothing. */
        public void read(String key, long wid) {
            read(key, wid, 0);
        }

        /** The same, for a statement that reads and writes at once: it has read before its write of the identity `before`, where that is not 0. */
        public void read(String key, long wid, long before) {
            read(bytes(key), wid, before);
        }

        public void read(byte[] key, long wid, long before) {
            String its = Recorder.name(key);
            synchronized (Recorder.this) {
                if (isCutOff)
                    return;
                checkOpen();
                looked.add(its);
                lines.add(before == 0 ? lines.size() : placeOf(before), "r " + its + " " + Long.toUnsignedString(wid) + "\n");
                if (wid == 0)
                    return;
                reads.put(its, wid);
                int client = (int) Long.remainderUnsigned(wid, CLIENTS);
                boolean known = client > 0 && client <= parts.size();
                if (known) {
                    long count = parts.get(client - 1).countOf(wid);
                    known = count > 0 && count <= parts.get(client - 1).writes;
                }
                if (!known && !options.isShared && strange == null)
                    strange = name + " read " + its + " as " + Long.toUnsignedString(wid);
            }
        }

        /** An identity for a write of the key, to be kept with the value: it is asked for directly before the statement is sent. */
        public long write(String key) {
            return write(bytes(key));
        }

        public long write(byte[] key) {
            String its = Recorder.name(key);
            synchronized (Recorder.this) {
                if (!isCutOff)
                    checkOpen();
                if (options.rounds > 0 && its.startsWith(FENCE))
                    throw new Misuse("'%s' begins as the fences of rounds do", its);
                long wid = (isCutOff ? fences : session.part).identity();
                written.put(wid, "w " + its + " " + wid + "\n");
                keys.put(its, key);
                // one that nobody waits for goes on, and its outcome stays unknown
                (isCutOff ? unlearnt.lines : lines).add(written.get(wid));
                if (options.durable && !isCutOff)
                    session.part.tryToFlush(lines);
                return wid;
            }
        }

        /** The write of this identity was not done: the store said so, or it was never sent; and the transaction goes on. */
        public void refused(long wid) {
            synchronized (Recorder.this) {
                if (isCutOff)
                    return;
                checkOpen();
                lines.remove(placeOf(wid));
                written.remove(wid);
            }
        }

        /** It is committed: the store has said so. */
        public void commit() {
            endAs("commit");
        }

        /** It was rolled back, by the client or by the store. */
        public void abort() {
            endAs("abort");
        }

        /** Nobody learnt whether it was committed. The session goes on under another number, and should do so on a new connection. */
        public void unknown() {
            endAs("unknown");
        }

        private void endAs(String its) {
            synchronized (Recorder.this) {
                if (isCutOff)
                    return;
                checkOpen();
                end(its);
            }
        }

        private void end(String its) {
            outcome = its;
            session.txn = null;
            open.remove(this);
            if (options.rounds == 0 || !its.equals("unknown")) {
                lines.add(lineOfEnd(its));
                session.part.put(lines);
            }
            if (options.rounds > 0)
                endInRound(this);
            else
                addLabel(labels, name, label);
            add(its, 1);
            if (its.equals("commit")) {
                add("reads", reads.size());
                for (long wid : reads.values())
                    add("reads of others", session.part.countOf(wid) < session.firstWrite ? 1 : 0);
            } else if (its.equals("unknown") && options.rounds == 0)
                session.number = 0;
            if (session.part.lines.length() > BUFFER)
                session.part.tryToFlush(Collections.emptyList());
            long now = System.nanoTime();
            if (now - due > 0) {
                due = now + HELD;
                for (int left = parts.size(); left > 0 && System.nanoTime() - now < PAUSE; left--) {
                    Part part = parts.get(turns++ % parts.size());
                    // of one without lines an open transaction may stand in the file, where it is durable
                    if (part.lines.length() > 0)
                        part.tryToFlush(Collections.emptyList());
                }
            }
        }

        private int placeOf(long wid) {
            int place = written.containsKey(wid) ? lines.indexOf(written.get(wid)) : -1;
            if (place < 0)
                throw new Misuse("%s did not write with identity %s", name, Long.toUnsignedString(wid));
            return place;
        }

        private void checkOpen() {
            if (outcome != null)
                throw new Misuse("%s has ended (%s): begin another transaction", name, outcome);
        }
    }
}
