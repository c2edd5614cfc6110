import java.sql.*;
import java.util.*;
import java.util.concurrent.*;
import java.util.concurrent.atomic.AtomicInteger;

/**
 * Load URL LEVEL OUT NAME=VALUE..: random transactions of clients that run at once, by JDBC, and their log. LEVEL is serializable, snapshot (H2 alone), repeatable-read, read-committed or read-uncommitted; of the names sessions, transactions,
 * keys, tables (into which they are dealt), pause (milliseconds), seed, moments (all), kill (so many transactions to one whose connection is
 * broken off) and scan (a share of 100 that read all keys, each table in one statement). One connection stays open, so that a store in memory stays.
 */
public final class Load {
    private static final List<String> LEVELS = Arrays.asList("read-uncommitted", "read-committed", "repeatable-read", "serializable");
    private static final int[] NUMBERS = {1, 2, 4, 8};

    private static int tables;

    /** The table in which a key has its row. */
    private static String table(int key) {
        return "stock" + key % tables;
    }

    static Connection connect(String url, String level) throws SQLException {
        Connection connection = DriverManager.getConnection(url);
        if (level.equals("snapshot")) {
            try (Statement statement = connection.createStatement()) {
                statement.execute("SET SESSION CHARACTERISTICS AS TRANSACTION ISOLATION LEVEL SNAPSHOT");
            }
        } else
            connection.setTransactionIsolation(NUMBERS[LEVELS.indexOf(level)]);
        return connection;
    }

    private static void read(Connection connection, Recorder.Transaction txn, int key) throws SQLException {
        try (PreparedStatement ask = connection.prepareStatement("SELECT wid FROM " + table(key) + " WHERE item = ?")) {
            ask.setInt(1, key);
            try (ResultSet row = ask.executeQuery()) {
                // H2 at READ UNCOMMITTED may find no row while another client changes it
                if (row.next())
                    txn.read("k" + key, row.getLong(1));
            }
        }
    }

    /** All keys of a table by one statement: each has its read, in the order in which the store gives them. */
    private static void scan(Connection connection, Recorder.Transaction txn) throws SQLException {
        for (int number = 0; number < tables; number++) {
            try (Statement ask = connection.createStatement(); ResultSet row = ask.executeQuery("SELECT item, wid FROM " + table(number))) {
                while (row.next())
                    txn.read("k" + row.getInt(1), row.getLong(2));
            }
        }
    }

    private static void write(Connection connection, Recorder.Transaction txn, int key) throws SQLException {
        try (PreparedStatement set = connection.prepareStatement("UPDATE " + table(key) + " SET wid = ? WHERE item = ?")) {
            set.setLong(1, txn.write("k" + key));
            set.setInt(2, key);
            set.executeUpdate();
        }
    }

    private static void make(Connection connection, Recorder.Transaction txn, Random dice, Map<String, Integer> how) throws SQLException {
        if (dice.nextInt(100) < how.get("scan"))
            scan(connection, txn);
        int operations = 1 + dice.nextInt(5), kill = how.get("kill") > 0 && dice.nextInt(how.get("kill")) == 0 ? dice.nextInt(operations) : -1;
        for (int operation = 0; operation < operations; operation++) {
            try {
                Thread.sleep(0, 1 + dice.nextInt(1 + how.get("pause") * 999999));
            } catch (InterruptedException fault) {
                throw new IllegalStateException(fault);
            }
            if (operation == kill) {
                // the driver's own: what Jdbc gives refuses to be closed
                Connection its = connection.unwrap(Connection.class);
                its.abort(Runnable::run);
                if (!its.isClosed())
                    its.close();
            }
            int key = dice.nextInt(how.get("keys")), kind = dice.nextInt(10);
            if (kind != 5)
                read(connection, txn, key);
            if (kind > 4)
                write(connection, txn, key);
        }
        if (dice.nextInt(20) == 0)
            txn.abort();
    }

    public static void main(String[] words) throws Exception {
        String url = words[0], level = words[1];
        Map<String, Integer> how = new HashMap<>();
        for (String it : "sessions=8 transactions=400 keys=20 pause=1 seed=1 moments=0 kill=0 scan=0 tables=1".split(" "))
            how.put(it.split("=")[0], Integer.parseInt(it.split("=")[1]));
        for (String it : Arrays.copyOfRange(words, 3, words.length))
            how.put(it.split("=")[0], Integer.parseInt(it.split("=")[1]));
        tables = how.get("tables");
        Recorder.Options options = new Recorder.Options().overwrite();
        if (how.get("moments") == 1)
            options.moments();
        try (Connection first = DriverManager.getConnection(url); Recorder run = new Recorder(words[2], options)) {
            try (Statement statement = first.createStatement()) {
                for (int number = 0; number < tables; number++)
                    statement.execute("CREATE TABLE " + table(number) + " (item INT PRIMARY KEY, wid BIGINT)");
                for (int key = 0; key < how.get("keys"); key++)
                    statement.execute("INSERT INTO " + table(key) + " VALUES (" + key + ", 0)");
            }
            AtomicInteger turns = new AtomicInteger();
            ExecutorService pool = Executors.newFixedThreadPool(how.get("sessions"));
            List<Future<?>> ends = new ArrayList<>();
            for (int number = 0; number < how.get("sessions"); number++) {
                Random dice = new Random(how.get("seed") * 1000L + number);
                ends.add(pool.submit(() -> {
                    try (Jdbc client = new Jdbc(run, () -> connect(url, level))) {
                        while (turns.getAndIncrement() < how.get("transactions"))
                            client.transaction("random", (connection, txn) -> make(connection, txn, dice, how));
                    }
                    return null;
                }));
            }
            pool.shutdown();
            for (Future<?> end : ends)
                end.get();
            try (Jdbc last = new Jdbc(run, () -> connect(url, level))) {
                last.transaction(Load::scan);
            }
            try (Statement statement = first.createStatement()) {
                for (int number = 0; number < tables; number++)
                    statement.execute("DROP TABLE " + table(number));
            }
        }
        System.exit(0);
    }
}
