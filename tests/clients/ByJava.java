// Runs the lines on standard input by MariaDB Connector/J, and prints the outcome of each, with an empty line after it.
// Usage: java -cp mariadb-java-client.jar ByJava.java PORT USER PASSWORD DATABASE [OPTIONS]
// With options the characters of bound texts are bytes, as in the list `prepared`.

import java.io.BufferedReader;
import java.io.ByteArrayInputStream;
import java.io.InputStreamReader;
import java.math.BigDecimal;
import java.math.BigInteger;
import java.nio.charset.StandardCharsets;
import java.sql.Connection;
import java.sql.DriverManager;
import java.sql.PreparedStatement;
import java.sql.ResultSet;
import java.sql.SQLException;
import java.sql.Statement;
import java.sql.Types;
import java.util.ArrayList;
import java.util.List;
import java.util.regex.Matcher;
import java.util.regex.Pattern;

public class ByJava {
    private static final Pattern BOUND = Pattern.compile("@(bind|typed|long|kept) \\[(.*?)\\](?: (.*))?");
    private static final Pattern VALUE = Pattern.compile("\"(?:[^\"\\\\]|\\\\.)*\"|-?\\d+|null");
    private static final Pattern ESCAPE = Pattern.compile("\\\\(u[0-9a-f]{4}|.)");
    private static boolean hasBytes = false;
    private static PreparedStatement kept = null;

    private static String text(byte[] bytes) {
        StringBuilder text = new StringBuilder("'");
        for (byte each : bytes) {
            boolean plain = each >= 0x20 && each <= 0x7e && each != '\'' && each != '\\';
            text.append(plain ? String.valueOf((char) each) : String.format("\\x%02x", each));
        }
        return text.append("'").toString();
    }

    private static String value(ResultSet rows, int at) throws SQLException {
        if (rows.getObject(at) == null) return "NULL";
        int type = rows.getMetaData().getColumnType(at);
        boolean isText = type == Types.VARBINARY || type == Types.VARCHAR;
        return isText ? text(rows.getBytes(at)) : rows.getObject(at).toString();
    }

    private static List<String> shown(ResultSet rows) throws SQLException {
        List<String> lines = new ArrayList<>();
        int width = rows.getMetaData().getColumnCount();
        while (rows.next()) {
            List<String> cells = new ArrayList<>();
            for (int at = 1; at <= width; at++) cells.add(value(rows, at));
            lines.add(String.join("|", cells));
        }
        lines.add("rows " + lines.size());
        return lines;
    }

    private static String unescaped(String text) {
        Matcher escape = ESCAPE.matcher(text);
        return escape.replaceAll(it -> {
            String code = it.group(1);
            String told = code.length() == 5 ? String.valueOf((char) Integer.parseInt(code.substring(1), 16)) : code.equals("n") ? "\n" : code;
            return Matcher.quoteReplacement(told);
        });
    }

    private static void bind(PreparedStatement statement, int at, String value, boolean isLong) throws SQLException {
        if (value.equals("null")) {
            statement.setObject(at, null);
        } else if (!value.startsWith("\"")) {
            BigInteger number = new BigInteger(value);
            if (number.bitLength() < 64) statement.setLong(at, number.longValue());
            else statement.setBigDecimal(at, new BigDecimal(number));
        } else {
            String text = unescaped(value.substring(1, value.length() - 1));
            byte[] bytes = text.getBytes(StandardCharsets.ISO_8859_1);
            if (isLong) statement.setBinaryStream(at, new ByteArrayInputStream(bytes));
            else if (hasBytes && text.chars().anyMatch(it -> it > 0x7e)) statement.setBytes(at, bytes);
            else statement.setString(at, text);
        }
    }

    private static List<String> executed(PreparedStatement statement, String values, boolean isLong) throws SQLException {
        Matcher value = VALUE.matcher(values);
        for (int at = 1; value.find(); at++) bind(statement, at, value.group(), isLong);
        return statement.execute() ? shown(statement.getResultSet()) : List.of("ok " + statement.getLargeUpdateCount());
    }

    private static List<String> bound(Connection connection, Matcher line) throws SQLException {
        if (line.group(1).equals("kept")) return executed(kept, line.group(2), false);
        try (PreparedStatement statement = connection.prepareStatement(line.group(3))) {
            return executed(statement, line.group(2), line.group(1).equals("long"));
        }
    }

    private static List<String> run(Connection connection, String line) throws SQLException {
        Matcher values = BOUND.matcher(line);
        if (values.matches()) return bound(connection, values);
        switch (line) {
            case "@off": connection.setAutoCommit(false); break;
            case "@on": connection.setAutoCommit(true); break;
            case "@commit": connection.commit(); break;
            case "@rollback": connection.rollback(); break;
            case "@ping": return List.of(connection.isValid(10) ? "ok 0" : "ERROR no ping");
            default:
                if (line.equals("@pause")) break;
                if (line.startsWith("@keep ")) {
                    kept = connection.prepareStatement(line.substring(6));
                    break;
                }
                if (line.startsWith("@use ")) {
                    connection.setCatalog(line.substring(5));
                    break;
                }
                try (Statement statement = connection.createStatement()) {
                    boolean isRows = statement.execute(line.equals("@begin") ? "BEGIN" : line);
                    return isRows ? shown(statement.getResultSet()) : List.of("ok " + statement.getLargeUpdateCount());
                }
        }
        return List.of("ok 0");
    }

    private static String refusal(SQLException error) {
        String message = error.getMessage().replaceFirst("^\\(conn=\\d+\\) ", "");
        return "ERROR " + error.getErrorCode() + " (" + error.getSQLState() + "): " + message;
    }

    private static List<String> outcome(Connection connection, String line) {
        try {
            return run(connection, line);
        } catch (SQLException error) {
            return List.of(refusal(error));
        }
    }

    private static Connection connected(String[] words) throws SQLException {
        String options = words.length > 4 ? words[4] : "";
        hasBytes = !options.isEmpty();
        return DriverManager.getConnection("jdbc:mariadb://127.0.0.1:" + words[0] + "/" + words[3] + options, words[1], words[2]);
    }

    public static void main(String[] words) throws Exception {
        Connection client = null, other = null;
        try {
            client = connected(words);
        } catch (SQLException error) {
            System.out.println(refusal(error));
            System.exit(1);
        }
        BufferedReader input = new BufferedReader(new InputStreamReader(System.in, StandardCharsets.UTF_8));
        for (String line; (line = input.readLine()) != null;) {
            List<String> lines;
            if (line.startsWith("@other ")) {
                if (other == null) other = connected(words);
                lines = outcome(other, line.substring(7));
                outcome(other, "COMMIT");
            } else {
                lines = outcome(client, line);
            }
            System.out.println(String.join("\n", lines) + "\n");
        }
        client.close();
        if (other != null) other.close();
    }
}
