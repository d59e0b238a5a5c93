"""What clients ask that is refused, or that they show otherwise than with MySQL, as docs/CLIENTS.md has it: the last line that each shows."""

from libraries import BUILT, C_FLAGS, JAR, NODE, PYTHON

# How each begins. %PORT% is the router's port.
PYMYSQL = "import pymysql; it = pymysql.connect(host='127.0.0.1', port=%PORT%, user='app', database='shop'); c = it.cursor(); "
AIOMYSQL = """
import aiomysql, asyncio

async def read():
    async with aiomysql.create_pool(host="127.0.0.1", port=%PORT%, user="app", db="shop", maxsize=1) as pool:
        for _ in range(2):
            async with pool.acquire() as it, it.cursor() as cursor:
                await cursor.execute("SELECT COUNT(*) FROM u")
                rows = await cursor.fetchall()
        print(rows)

asyncio.run(read())
"""
PEEWEE = "import peewee; it = peewee.MySQLDatabase('shop', host='127.0.0.1', port=%PORT%, user='app', password=''); "
PEEWEE_END = "print(it.execute_sql('SELECT COUNT(*) FROM u').fetchall())"
DJANGO = """
from django.conf import settings
place = {"ENGINE": "django.db.backends.mysql", "NAME": "shop", "HOST": "127.0.0.1", "PORT": "%PORT%", "USER": "app"}
settings.configure(DATABASES={"default": place})
from django.db import connection
connection.cursor().execute("SELECT COUNT(*) FROM u")
"""
ODBC = "import pyodbc; it = pyodbc.connect('DRIVER=libmaodbc.so;SERVER=127.0.0.1;PORT=%PORT%;DATABASE=shop;UID=app'); "
SEQUEL = "require 'sequel'; it = Sequel.connect(adapter: 'mysql2', host: '127.0.0.1', port: %PORT%, user: 'app', database: 'shop'); p it[:u].all"
ALCHEMY = "import sqlalchemy as s; it = s.create_engine('mysql+pymysql://app@127.0.0.1:%PORT%/shop'); "
MAPPED = "T = s.table('t', s.column('id'), s.column('c')); "
MYSQLI = "$it = new mysqli('127.0.0.1', 'app', '', 'shop', %PORT%); "
# the write after a refusal that isn't seen is committed at once, and no rollback undoes it
UNSEEN = "$it->begin_transaction(MYSQLI_TRANS_START_READ_ONLY); $it->query('INSERT INTO t VALUES (48, 1)'); $it->rollback(); "
UNSEEN += "echo $it->query('SELECT c FROM t WHERE id = 48')->num_rows;"
KEPT = MYSQLI.replace("127.0.0.1", "p:127.0.0.1")
PDO = "$it = new PDO('mysql:host=127.0.0.1;port=%PORT%;dbname=shop', 'app', ''); "
RUBY = "require 'mysql2'; it = Mysql2::Client.new(host: '127.0.0.1', port: %PORT%, username: 'app', database: 'shop'); "
JS = "const it = require('mysql').createConnection({host: '127.0.0.1', port: %PORT%, user: 'app', database: 'shop'}); "
JS_END = ", (e, r) => {console.log(e ? e.message : r); it.destroy()})"
POOL_END = ", (e, r) => {console.log(e ? e.message : r.length); it.end()})"
BIG = "it.query('INSERT INTO t VALUES (56, 18446744073709551615)'); it.query('SELECT c FROM t WHERE id = 56', (e, r) => {console.log(r[0].c); it.destroy()})"
CAUGHT = "process.on('uncaughtException', (e) => {console.log(e.message); process.exit()}); "
PERL = "use DBI; my $it = DBI->connect('DBI:DRIVER:host=127.0.0.1;port=%PORT%;database=shop', 'app', '', {RaiseError => 1, PrintError => 0}); "
# with RaiseError a refused commit is an error, which it is not by default
TWO = "my $other = $it->clone; $it->begin_work; $it->do('DELETE FROM t WHERE id = 40'); $other->do('INSERT INTO t VALUES (44, 1)'); "
TWO += "$other->do('DELETE FROM t WHERE id = 44'); eval { $it->commit }; print $@"
TDBC = "package require tdbc::mysql; set it [tdbc::mysql::connection new -host 127.0.0.1 -port %PORT% -user app -passwd {} -db shop]; "
TCL = "package require mysqltcl; set it [mysql::connect -host 127.0.0.1 -port %PORT% -user app -password {} -db shop]; "
R = "suppressMessages(library(RMySQL)); it <- dbConnect(MySQL(), host = '127.0.0.1', port = %PORT%L, username = 'app', dbname = 'shop'); "
JAVA = """
import java.sql.*;
public class Asks {
    interface Call { void run(Connection it) throws SQLException; }
    static final String PLACE = "jdbc:mariadb://127.0.0.1:%PORT%/shop?user=app";
    static String told(Call call) {
        try (Connection it = DriverManager.getConnection(PLACE)) {
            call.run(it);
            return "done ";
        } catch (SQLException error) {
            return error.getErrorCode() + " ";
        }
    }
    public static void main(String[] words) {
        System.out.println(CALLS);
    }
}
"""
JAVA_CALLS = (
    ('it.getMetaData().getTables("shop", null, "%", null)', "1064"),
    ('it.getMetaData().getColumns("shop", null, "t", "%")', "1064"),
    ('PreparedStatement s = it.prepareStatement("SELECT v FROM b WHERE k = ?"); s.setBytes(1, new byte[1]); s.execute()', "done"),
    ('PreparedStatement s = it.prepareStatement("SELECT c FROM t WHERE id = ?"); s.setString(1, "4"); s.execute()', "done"),
    ('PreparedStatement s = it.prepareStatement("SELECT c FROM t WHERE id = ?"); s.setInt(1, 4); s.execute()', "done"),
    ('it.setAutoCommit(false); it.setSavepoint("x")', "1064"),
    ('Statement s = it.createStatement(); s.setMaxRows(1); s.execute("SELECT id FROM t")', "1235"),
    ('it.setTransactionIsolation(Connection.TRANSACTION_READ_COMMITTED)', "done"),
    ('DriverManager.getConnection(PLACE + "&useServerPrepStmts=true").prepareStatement("SELECT c FROM t")', "done"),
    ('DriverManager.getConnection(PLACE + "&sessionVariables=wait_timeout=600")', "1235"),
    ('DriverManager.getConnection(PLACE + "&useSsl=true&trustServerCertificate=true")', "-1"),
    ('DriverManager.getConnection(PLACE + "&pool=true&maxPoolSize=2").createStatement().execute("SELECT c FROM t")', "done"),
)
C = """
#include <mysql.h>
#include <stdio.h>
int main() {
    MYSQL *it = mysql_init(NULL);
    mysql_real_connect(it, "127.0.0.1", "app", "", "shop", %PORT%, NULL, 0);
    printf("%d %d %d", mysql_change_user(it, "app", "", "shop"), !mysql_list_fields(it, "t", NULL), mysql_reset_connection(it));
}
"""
PLACE = ("--no-defaults", "-h", "127.0.0.1", "-P", "%PORT%", "-u", "app")


def python(text):
    return (PYTHON, "-c", text)


def perl(driver, text):
    return ("perl", "-e", PERL.replace("DRIVER", driver) + text)


def tcl(text):
    return ("bash", "-c", 'tclsh <<< "$0"', text)


def java():
    source = JAVA.replace("CALLS", " + ".join(f"told(it -> {{ {call}; }})" for call, _ in JAVA_CALLS))
    return ("bash", "-c", f'printf %s "$0" > {BUILT}/Asks.java && java -cp {JAR} {BUILT}/Asks.java', source)


def in_c():
    return ("bash", "-c", f'gcc -x c - {C_FLAGS} -o {BUILT}/asks <<< "$0" && {BUILT}/asks', C)


def go(options):
    return ("bash", "-c", f'{BUILT}/by_go %PORT% app "" shop "$0" < /dev/null', options)


ASKS = (
    ("PyMySQL", python(PYMYSQL + "c.execute('SELECT COUNT(*) FROM t')"), "pymysql.err.OperationalError: (1105, 'more than one shard')"),
    ("PyMySQL", python(PYMYSQL + "c.execute('SELECT n FROM u'); it.begin()"), "pymysql.err.NotSupportedError: (1235, 'not supported')"),
    ("PyMySQL", python(PYMYSQL + "c.execute('/* a */ SELECT @@version # b'); print(c.fetchall())"), "((b'8.0.0-router',),)"),
    ("PyMySQL", python(PYMYSQL + "c.execute('SELECT DATABASE()'); print(c.fetchall())"), "((b'shop',),)"),
    ("PyMySQL", python(PYMYSQL + "c.execute('SELECT c FROM t WHERE id = %s', (1.5,))"), "pymysql.err.ProgrammingError: (1064, 'syntax error')"),
    ("PyMySQL", python(PYMYSQL.replace("'shop'", "'shop', binary_prefix=True") + "c.execute('SELECT v FROM b WHERE k = %s', (b'x',)); print(c.fetchall())"), "()"),
    ("PyMySQL", python(PYMYSQL.replace("'shop'", "'shop', sql_mode='ANSI'")), "pymysql.err.NotSupportedError: (1235, 'not supported')"),
    ("PyMySQL", python(PYMYSQL.replace("'shop'", "'shop', ssl={'ca': None}") + "print(it.open)"), "True"),
    ("aiomysql", python(AIOMYSQL), "((0,),)"),
    ("SQLAlchemy", python(ALCHEMY + MAPPED + "print(it.connect().execute(s.select(T).where(T.c.id == 4)).all())"), "[]"),
    ("SQLAlchemy", python(ALCHEMY + MAPPED + "print(it.connect().execute(T.insert().values(id=4, c=1)).rowcount)"), "1"),
    ("SQLAlchemy", python(ALCHEMY + MAPPED + "print(it.connect().execute(T.delete().where(T.c.id == 4)).rowcount)"), "1"),
    ("SQLAlchemy", python(ALCHEMY + "s.inspect(it).get_table_names()"), "TypeError: a bytes-like object is required, not 'str'"),
    ("peewee", python(PEEWEE + PEEWEE_END), "peewee.NotSupportedError: (1235, 'not supported')"),
    ("peewee", python(PEEWEE.replace("'shop'", "'shop', sql_mode=''") + PEEWEE_END), "((0,),)"),
    ("Django", python(DJANGO), "django.db.utils.ProgrammingError: (1064, 'syntax error')"),
    ("pyodbc", python(ODBC + "print(it.execute('SELECT n FROM u').fetchall())"), "[]"),
    ("Sequel", ("ruby", "-e", "begin; " + SEQUEL + "; rescue => e; puts e.message; end"), "Mysql2::Error: not supported"),
    ("Sequel", ("ruby", "-e", SEQUEL.replace("'shop'", "'shop', timeout: 28800")), "[]"),
    ("DBD::mysql", perl("mysql", TWO), "DBD::mysql::db commit failed: conflict at -e line 1."),
    ("DBD::MariaDB", perl("MariaDB", TWO), "DBD::MariaDB::db commit failed: conflict at -e line 1."),
    ("DBD::mysql", perl("mysql", "$it->column_info(undef, 'shop', 't', '%')"), "DBD::mysql::db column_info failed: syntax error at -e line 1."),
    ("DBD::MariaDB", perl("MariaDB", "$it->tables(undef, undef, '%', 'TABLE')"), "DBD::MariaDB::db tables failed: syntax error at -e line 1."),
    ("Connector/J", java(), " ".join(wanted for _, wanted in JAVA_CALLS) + " "),
    ("C", in_c(), "1 1 0"),
    ("go-sql-driver", go("?autocommit=false"), "ERROR 1235: not supported"),
    ("go-sql-driver", go("?sql_mode='ANSI'"), "ERROR 1235: not supported"),
    ("go-sql-driver", go("?tls=true"), "ERROR TLS requested but server does not support TLS"),
    ("mysqli", ("php", "-r", MYSQLI + "var_dump($it->savepoint('x'));"), "bool(false)"),
    ("mysqli", ("php", "-r", MYSQLI + "var_dump($it->release_savepoint('x'));"), "bool(false)"),
    ("mysqli", ("php", "-r", MYSQLI + "var_dump($it->begin_transaction(0, 'name'));"), "bool(true)"),
    ("mysqli", ("php", "-r", MYSQLI + "var_dump($it->commit(0, 'name'));"), "bool(true)"),
    ("mysqli", ("php", "-r", MYSQLI + "try { $it->multi_query('SELECT id FROM t; SELECT id FROM t'); } catch (Exception $e) { echo $e->getCode(); }"), "1064"),
    ("mysqli", ("php", "-r", KEPT + "$it->close(); " + KEPT + "echo $it->query('SELECT n FROM u')->num_rows;"), "0"),
    ("mysqli", ("php", "-r", MYSQLI + "$it->begin_transaction(); var_dump($it->begin_transaction());"), "bool(false)"),
    ("mysqli", ("php", "-r", MYSQLI + "var_dump($it->begin_transaction(MYSQLI_TRANS_START_READ_WRITE));"), "bool(true)"),
    ("mysqli", ("php", "-r", MYSQLI + UNSEEN), "1"),
    ("mysqli", ("php", "-r", MYSQLI + "try { $it->query('START TRANSACTION READ ONLY'); } catch (Exception $e) { echo $e->getCode(); }"), "1235"),
    ("mysqli", ("php", "-r", MYSQLI + "$it->prepare('SELECT c FROM t'); echo 'done';"), "done"),
    ("PDO", ("php", "-r", PDO + "$it->setAttribute(PDO::ATTR_EMULATE_PREPARES, false); $it->query('SELECT id FROM t'); echo 'done';"), "done"),
    ("mysql2", ("ruby", "-e", RUBY + "p it.query('SELECT DATABASE()', as: :array).first[0].encoding"), "#<Encoding:ASCII-8BIT>"),
    ("mysql2", ("ruby", "-e", RUBY.replace("'shop'", "'shop', ssl_mode: :required") + "p it.query('SELECT VERSION()', as: :array).first[0]"), '"8.0.0-router"'),
    ("node mysql", (*NODE, "-e", JS + "it.query('SELECT v FROM b WHERE k = ?', [Buffer.from('x')]" + JS_END), "ER_PARSE_ERROR: syntax error"),
    ("node mysql", (*NODE, "-e", JS + "it.query('SELECT c FROM t WHERE id = ?', ['4']" + JS_END), "[]"),
    ("node mysql", (*NODE, "-e", JS + "it.query('INSERT INTO t SET ?', [{id: 60, c: 1}]" + JS_END), "}"),
    ("node mysql", (*NODE, "-e", JS.replace("'shop'", "'shop', supportBigNumbers: true, bigNumberStrings: true") + BIG), "18446744073709551615"),
    ("node mysql", (*NODE, "-e", JS.replace("Connection", "Pool").replace("'shop'", "'shop', connectionLimit: 2") + "it.query('SELECT n FROM u'" + POOL_END), "0"),
    ("node mysql", (*NODE, "-e", CAUGHT + JS + "it.statistics((e) => 0)"), "Could not determine packet, firstByte = 56"),
    ("node mysql", (*NODE, "-e", JS + "it.changeUser({user: 'app'}" + JS_END), "ER_UNKNOWN_COM_ERROR: unknown command"),
    ("mysqltcl", tcl(TCL + "catch {mysql::col $it t name} told; puts $told"), "mysql::col/db server: unknown command"),
    ("mysqltcl", tcl(TCL + "catch {mysql::changeuser $it app {} base} told; puts $told"), "mysql::changeuser/db server: unknown command"),
    ("tdbc::mysql", tcl(TDBC + "puts [$it allrows {SELECT n FROM u}]"), ""),
    ("RMySQL", ("Rscript", "-e", R + "print(dbListFields(it, 't'))"), '[1] "id" "c" '),
    ("RMySQL", ("Rscript", "-e", R + "x <- dbExecute(it, 'INSERT INTO t VALUES (52, 1)'); print(dbReadTable(it, 't')$c[1])"), "[1] 1"),
    ("RMySQL", ("Rscript", "-e", R + "print(dbGetQuery(it, sqlInterpolate(it, 'SELECT c FROM t WHERE id = ?x', x = 52L))$c)"), "[1] 1"),
    ("RMySQL", ("Rscript", "-e", R + "it <- try(dbWriteTable(it, 'z', data.frame(a = 1)))"), "  could not run statement: syntax error"),
    ("mariadb", ("mariadb-admin", *PLACE, "status"), "8.0.0-router"),
    ("mariadb", ("mariadb-show", *PLACE, "shop"), "+--------+"),
    ("mariadb", ("mariadb-show", *PLACE, "shop", "t"), "mariadb-show: Cannot list columns in db: shop, table: t: syntax error"),
    ("mariadb", ("mariadb-dump", *PLACE, "shop", "t"), "mariadb-dump: Couldn't execute '/*!40100 SET @@SQL_MODE='' */': syntax error (1064)"),
    ("mariadb", ("mariadb-import", *PLACE, "shop", "/t"), "mariadb-import: Error: 1064 syntax error"),
)
