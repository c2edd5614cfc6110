import java.lang.reflect.InvocationTargetException;
import java.lang.reflect.Method;
import java.lang.reflect.Proxy;
import java.sql.Connection;
import java.sql.SQLException;
import java.sql.SQLRecoverableException;
import java.sql.SQLTransientException;
import java.util.Arrays;
import java.util.HashSet;
import java.util.Set;
import java.util.regex.Pattern;

/**
 * One client of a store by JDBC, whose transactions a Recorder logs: it begins them, commits, and says what became of them. Put this file and
 * Recorder.java beside your test. docs/COLLECTING.md says what must be in a log, and why.
 *
 * <pre>{@code
 * try (Recorder run = new Recorder("run.log", new Recorder.Options())) {
 *     Jdbc client = new Jdbc(run, () -> {                                  // one for each thread
 *         Connection connection = DriverManager.getConnection(url);
 *         connection.setTransactionIsolation(Connection.TRANSACTION_SERIALIZABLE);
 *         return connection;
 *     });
 *     String outcome = client.transaction((connection, txn) -> {           // "commit", "abort" or "unknown"
 *         txn.read("stock/7", seen(connection, 7));                        // behind the answer
 *         set(connection, 8, txn.write("stock/8"));                        // the identity is asked for before the statement
 *     });
 *     client.close();
 * }
 * }</pre>
 *
 * The connection that a transaction gets refuses to commit, to roll back as a whole, to close, and to change auto-commit. If a statement fails and
 * the transaction goes on, it is rolled back in the end, unless it rolled back to a savepoint: some stores have rolled back by then, and commit
 * what follows as another transaction, without a word. Nothing of this is proved.
 */
public final class Jdbc implements AutoCloseable {
    /** Gives a new connection, with its level of isolation. */
    public interface Connecting {
        Connection connect() throws SQLException;
    }

    /** What a transaction does. */
    public interface Body {
        void run(Connection connection, Recorder.Transaction txn) throws SQLException;
    }

    /** Codes of SQLSTATE by which commit() says that the transaction was rolled back: 08003, as there was no connection by which to commit, and
     * 25P02, as a statement had failed. */
    private static final Set<String> ROLLED_BACK = new HashSet<>(Arrays.asList("08003", "25P02"));
    /** Codes by which a statement says that others were in the way or that the connection is gone, where neither the class of the code nor that of
     * the exception does: of H2 90007, 90067, 90098, 90121 (closed) and 90131 (changed by another one), of Derby XCL16 (closed by a rollback), of PostgreSQL
     * 55P03 (waited too long for a lock). */
    private static final Set<String> IN_THE_WAY = new HashSet<>(Arrays.asList("90007", "90067", "90098", "90121", "90131", "XCL16", "55P03"));
    /** MariaDB has no code of its own for: changed since the snapshot, waited too long for a lock. */
    private static final Set<Integer> OF_MARIADB = new HashSet<>(Arrays.asList(1020, 1205));
    /** H2 has none for: another client rolls this transaction back, or ends its session. It is a general error, and its words say so. */
    private static final int OF_H2 = 50000;
    private static final Pattern ENDED = Pattern.compile("has status (ROLLING_BACK|CLOSED)|Transaction [0-9]+ is closed");
    /** SQLite has no code of SQLSTATE, so its own name stands in front: another client holds the lock. Its commit() leaves all undone then. */
    private static final String OF_SQLITE = "[SQLITE_BUSY";

    private static final Set<String> OURS = new HashSet<>(Arrays.asList("commit", "rollback", "close", "setAutoCommit"));

    private final Recorder.Session session;
    private final Connecting connecting;
    private Connection connection, watched;
    private boolean failed, gone;
    /** What a driver threw last, and by what the last transaction did not commit. */
    private Throwable strange, ending;

    public Jdbc(Recorder run, Connecting connecting) {
        session = run.session();
        this.connecting = connecting;
    }

    /** Whether an exception of commit() says that nothing was committed: 40 is a rollback, but not 40003, which says that nobody knows; 23 is a
     * constraint that was deferred. Any other leaves the outcome unknown. */
    public static boolean isRolledBack(SQLException fault) {
        String state = String.valueOf(fault.getSQLState());
        return ROLLED_BACK.contains(state) || state.startsWith("23") || state.startsWith("40") && !state.equals("40003")
                || fault.getSQLState() == null && String.valueOf(fault.getMessage()).startsWith(OF_SQLITE);
    }

    /** Whether an exception is one that a test of several clients and broken connections has to expect, and no mistake in it. */
    public static boolean isExpected(SQLException fault) {
        String state = String.valueOf(fault.getSQLState());
        return isRolledBack(fault) || state.startsWith("40") || state.startsWith("08") || state.startsWith("57") || state.startsWith("HYT") || IN_THE_WAY.contains(state)
                || OF_MARIADB.contains(fault.getErrorCode()) && state.startsWith("HY")
                || fault.getErrorCode() == OF_H2 && ENDED.matcher(String.valueOf(fault.getMessage())).find()
                || fault instanceof SQLTransientException || fault instanceof SQLRecoverableException;
    }

    /** The exception by which the last transaction of this client did not commit, also where it did not go on; null where there was none. */
    public Throwable fault() {
        return ending;
    }

    /** Makes a transaction and gives its outcome. An exception that is not to be expected goes on; the log has the transaction then too. */
    public String transaction(Body body) throws SQLException {
        return transaction(null, body);
    }

    /** The same; the label says on a line what it is for, beside the log in a file of its own. */
    public String transaction(String label, Body body) throws SQLException {
        failed = false;
        ending = null;
        Recorder.Transaction txn = session.begin(label);
        try {
            if (connection == null)
                connect();
            body.run(watched, txn);
            ending = failed ? strange : null;
            // a driver may say nothing of a commit on a connection that is gone
            if (txn.outcome() == null && (failed || connection.isClosed()))
                txn.abort();
        } catch (Throwable fault) {
            // no commit was sent
            ending = fault;
            boolean isToBeExpected = isToBeExpected(fault);
            if (connection != null)
                rollBack();
            if (txn.outcome() == null)
                txn.abort();
            if (isToBeExpected)
                return txn.outcome();
            throw fault;
        }
        if (txn.outcome() != null)
            rollBack();
        else
            commit(txn);
        return txn.outcome();
    }

    private void connect() throws SQLException {
        Connection its = connecting.connect();
        try {
            its.setAutoCommit(false);
        } catch (SQLException fault) {
            boolean isGone = its.isClosed();
            its.close();
            throw isGone ? new SQLException("the connection was closed as it was made", "08003", fault) : fault;
        }
        connection = its;
        gone = false;
        watched = (Connection) watched(its, Connection.class);
    }

    private void commit(Recorder.Transaction txn) throws SQLException {
        try {
            connection.commit();
        } catch (Throwable fault) {
            ending = fault;
            if (fault instanceof SQLException && isRolledBack((SQLException) fault)) {
                txn.abort();
                gone |= saysGone(fault);
                rollBack();
                return;
            }
            strange = fault;
            boolean isToBeExpected = isToBeExpected(fault);
            txn.unknown();
            drop();
            if (isToBeExpected)
                return;
            throw fault;
        }
        txn.commit();
    }

    /** Whether an exception is to be expected by its codes, or since the connection is gone: MariaDB's driver has no code for that, and HSQLDB's
     * throws a NullPointerException. */
    private boolean isToBeExpected(Throwable fault) throws SQLException {
        boolean isGone = connection != null && connection.isClosed();
        return fault instanceof SQLException ? isGone || isExpected((SQLException) fault) : isGone && fault == strange && fault instanceof RuntimeException;
    }

    /** The same object of a driver, which takes note of what fails, and leaves to this class what is its own. */
    private Object watched(Object its, Class<?> kind) {
        return Proxy.newProxyInstance(Jdbc.class.getClassLoader(), new Class<?>[]{kind}, (proxy, method, words) -> {
            boolean isBack = its == connection && method.getName().equals("rollback") && words != null;
            if (its == connection && OURS.contains(method.getName()) && !isBack)
                throw new Recorder.Misuse("%s() is called in a transaction, which Jdbc ends itself", method.getName());
            try {
                Object answer = method.invoke(its, words);
                failed &= !isBack;
                return isWatched(method) && answer != null ? watched(answer, method.getReturnType()) : answer;
            } catch (InvocationTargetException fault) {
                failed = true;
                strange = fault.getCause();
                gone |= saysGone(strange);
                throw strange;
            }
        });
    }

    /** Whether a call gives something by which statements are made, sent or answered. */
    private static boolean isWatched(Method method) {
        Class<?> kind = method.getReturnType();
        return java.sql.Statement.class.isAssignableFrom(kind) || kind == java.sql.ResultSet.class;
    }

    /** Whether an exception says that the connection is gone. HSQLDB's driver says so in the exception alone. */
    private static boolean saysGone(Throwable fault) {
        return fault instanceof SQLException && String.valueOf(((SQLException) fault).getSQLState()).startsWith("08");
    }

    private void rollBack() {
        try {
            if (!gone && !connection.isClosed()) {
                connection.rollback();
                return;
            }
        } catch (SQLException | RuntimeException fault) {
            // it is of no use any more
        }
        drop();
    }

    /** Leaves the connection: the next transaction has a new one. Some stores commit as one is closed, so it is broken off first. */
    private void drop() {
        Connection its = connection;
        connection = null;
        try {
            its.abort(Runnable::run);
        } catch (SQLException | RuntimeException | AbstractMethodError fault) {
            // it is closed all the same
        }
        try {
            its.close();
        } catch (SQLException | RuntimeException fault) {
            // it was gone
        }
    }

    /** The client leaves. */
    @Override
    public void close() {
        session.close();
        if (connection == null)
            return;
        try {
            connection.rollback();
            connection.close();
        } catch (SQLException | RuntimeException fault) {
            drop();
        }
    }
}
