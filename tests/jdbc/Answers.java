import java.lang.reflect.Proxy;
import java.sql.*;
import java.util.*;

/** Answers OUT: what Jdbc makes of each exception, by a driver of which commit, a statement or rollback fails as is said; a line for each. */
public final class Answers {
    private static final List<String> calls = new ArrayList<>();

    /** A connection of which these calls throw this; it is closed, or from then on. */
    private static Connection failing(String name, Throwable fault, boolean isClosed) {
        boolean[] hasFailed = {fault == null};
        return (Connection) Proxy.newProxyInstance(Answers.class.getClassLoader(), new Class<?>[]{Connection.class}, (proxy, method, words) -> {
            calls.add(method.getName());
            if (method.getName().equals(name) && fault != null) {
                hasFailed[0] = true;
                throw fault;
            }
            if (method.getName().equals("isClosed"))
                return isClosed && hasFailed[0];
            return null;
        });
    }

    private static void ask(Recorder run, String name, Throwable fault, boolean isClosed, Jdbc.Body body) throws Exception {
        calls.clear();
        String outcome;
        int[] connected = {0};
        Jdbc.Connecting connecting = () -> {
            boolean isFirst = connected[0]++ == 0;
            if (isFirst && name.equals("connect"))
                throw (SQLException) fault;
            return failing(name, isFirst ? fault : null, isFirst && isClosed);
        };
        try (Jdbc client = new Jdbc(run, connecting)) {
            try {
                outcome = client.transaction(body);
                Throwable its = client.fault();
                if (its != fault && (its == null || its.getCause() != fault) && !outcome.equals("commit") && !name.equals("closed") && !name.equals("rollback"))
                    outcome += " by " + its;
                if (outcome.equals("commit") && its != null)
                    outcome += " though " + its;
            } catch (SQLException | RuntimeException | Error thrown) {
                outcome = "thrown " + (thrown == fault ? "as it was" : thrown.getClass().getSimpleName());
            }
            client.transaction((connection, txn) -> txn.write("y"));
        }
        String said = fault instanceof SQLException ? ((SQLException) fault).getSQLState() : String.valueOf(fault);
        System.out.println(name + " " + said + ": " + outcome + ", " + connected[0] + " connected" + (calls.contains("abort") ? ", broken off" : ""));
    }

    public static void main(String[] words) throws Exception {
        Jdbc.Body writes = (connection, txn) -> txn.write("x");
        try (Recorder run = new Recorder(words[0], new Recorder.Options())) {
            ask(run, "none", null, false, writes);
            for (String state : Arrays.asList("40001", "40P01", "40XL1", "40003", "23505", "25P02", "08003", "08006", "08007", "57P01", "HYT00", "90121", "XX000", null))
                ask(run, "commit", new SQLException("made", state), false, writes);
            ask(run, "commit", new SQLTransientConnectionException("made", "HY000", 1205), false, writes);
            ask(run, "commit", new SQLException("closed"), true, writes);
            ask(run, "commit", new SQLException("[SQLITE_BUSY] The database file is locked"), false, writes);
            ask(run, "commit", new IllegalStateException("made"), false, writes);
            ask(run, "commit", new IllegalStateException("made"), true, writes);
            for (SQLException fault : Arrays.asList(new SQLException("made", "40001"), new SQLException("made", "XCL16"), new SQLException("made", "90131"),
                    new SQLException("made", "HY000", 1020), new SQLException("made", "HY000", 7), new SQLException("Transaction 2 has status ROLLING_BACK, not OPEN", "HY000", 50000), new SQLException("General error: MVStoreException: Transaction 2 is closed", "HY000", 50000), new SQLException("made", "HY000", 50000), new SQLException("made", "42S02"), new SQLException("made", "08006"), new SQLException("made", "57014"),
                    new SQLException("[SQLITE_BUSY_SNAPSHOT] Another database connection has already written to the database"))) {
                ask(run, "prepareStatement", fault, false, (connection, txn) -> {
                    txn.write("x");
                    connection.prepareStatement("");
                });
                ask(run, "createStatement", fault, false, (connection, txn) -> {
                    txn.write("x");
                    try {
                        connection.createStatement();
                    } catch (SQLException caught) {
                        // and it goes on
                    }
                });
            }
            ask(run, "prepareStatement", new SQLException("closed"), true, (connection, txn) -> connection.prepareStatement(""));
            ask(run, "prepareStatement", new NullPointerException("closed"), true, (connection, txn) -> connection.prepareStatement(""));
            ask(run, "prepareStatement", new NullPointerException("made"), false, (connection, txn) -> connection.prepareStatement(""));
            ask(run, "createStatement", new SQLException("back to a savepoint", "23505"), false, (connection, txn) -> {
                txn.write("x");
                try {
                    connection.createStatement();
                } catch (SQLException caught) {
                    connection.rollback((Savepoint) null);
                }
            });
            ask(run, "closed", null, true, writes);
            ask(run, "body", new IllegalStateException("made"), false, (connection, txn) -> {
                throw new IllegalStateException("made");
            });
            ask(run, "prepareStatement", new SQLException("closed"), true, (connection, txn) -> {
                try {
                    connection.prepareStatement("");
                } catch (SQLException caught) {
                    throw new IllegalStateException("of the body itself");
                }
            });
            ask(run, "aborts", null, false, (connection, txn) -> txn.abort());
            ask(run, "commits", null, false, (connection, txn) -> connection.commit());
            ask(run, "closes", null, false, (connection, txn) -> connection.close());
            for (String state : Arrays.asList("08006", "08000", "57P03", "28000"))
                ask(run, "connect", new SQLException("made", state), false, writes);
            ask(run, "rollback", new SQLException("made", "08006"), false, (connection, txn) -> txn.abort());
            ask(run, "setAutoCommit", new SQLException("closed"), true, writes);
            ask(run, "setAutoCommit", new SQLException("made", "42000"), false, writes);
        }
    }
}
