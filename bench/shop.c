/*
 * The register as SQLite tables, in memory, with prepared statements: check, open, create and revoke as a payroll shop
 * would write them. A negative answer is a refusal, by its number of §5.2.1.
 */
#include <sqlite3.h>
#include <stdint.h>
#include <stdlib.h>

enum { BEGIN, COMMIT, CHECK, ADMIT, ENTER, USE, ORIGIN, INSERT, COUNT, NAMED, ENTITLED, MARK, STATEMENTS };

struct shop {
    sqlite3 *base;
    sqlite3_stmt *statements[STATEMENTS];
};

/* pass p is in life (§3.3.2) */
#define IN_LIFE "EXISTS (SELECT 1 FROM clock WHERE p.first <= tick AND tick < p.last)"
/* a role or pass admits a context (§3.3.4); shifts bind no tighter than & in SQLite */
#define ADMITS(on, hour, place, device)                                                                              \
    "((" on ".hours >> " hour ") & (" on ".places >> " place ") & (" on ".devices >> " device ") & 1)"

static const char *const texts[STATEMENTS] = {
    [BEGIN] = "BEGIN",
    [COMMIT] = "COMMIT",
    /* session, permission, hour, place, device */
    [CHECK] =
        "SELECT CASE WHEN s.pass IS NULL"
        " THEN (SELECT r.permissions >> ?2 & 1 AND " ADMITS("r", "?3", "?4", "?5")
        "   FROM role r JOIN appointed a ON a.role = r.id AND a.user = s.user WHERE r.id = s.role)"
        " ELSE (SELECT " IN_LIFE " AND " ADMITS("p", "?3", "?4", "?5") " AND (p.permissions >> ?2 & 1 OR"
        "   EXISTS (SELECT 1 FROM lent l JOIN role r ON r.id = l.role WHERE l.pass = p.id AND r.permissions >> ?2 & 1))"
        "   FROM pass p JOIN holder h ON h.pass = p.id AND h.user = s.user WHERE p.id = s.pass AND NOT p.revoked)"
        " END FROM session s WHERE s.id = ?1",
    /* session, user, pass, hour, place, device: the first refusal that applies, or 0 */
    [ADMIT] =
        "SELECT CASE"
        " WHEN EXISTS (SELECT 1 FROM session WHERE id = ?1) THEN 4"
        " WHEN NOT EXISTS (SELECT 1 FROM holder WHERE pass = p.id AND user = ?2) THEN 6"
        " WHEN p.revoked THEN 7"
        " WHEN NOT " IN_LIFE " THEN 8"
        " WHEN NOT " ADMITS("p", "?4", "?5", "?6") " THEN 9"
        " WHEN p.uses >= p.use_limit THEN 10"
        " ELSE 0 END FROM pass p WHERE p.id = ?3",
    [ENTER] = "INSERT INTO session VALUES (?1, ?2, NULL, ?3, ?4, ?5, ?6)",
    [USE] = "UPDATE pass SET uses = uses + 1 WHERE id = ?3",
    /* user, origin, hour, place, device, then the new pass's terms: the first refusal that applies, or 0 */
    [ORIGIN] =
        "SELECT CASE"
        " WHEN NOT EXISTS (SELECT 1 FROM holder WHERE pass = p.id AND user = ?1) THEN 6"
        " WHEN NOT (p.permissions & 1 OR EXISTS (SELECT 1 FROM lent l JOIN role r ON r.id = l.role"
        "   WHERE l.pass = p.id AND r.permissions & 1)) THEN 6"
        " WHEN p.revoked THEN 7"
        " WHEN NOT " IN_LIFE " THEN 8"
        " WHEN NOT " ADMITS("p", "?3", "?4", "?5") " THEN 9"
        " WHEN p.creations >= p.creation_limit THEN 10"
        " WHEN ?6 < p.first OR ?7 > p.last OR ?8 > p.use_limit OR ?9 > p.creation_limit OR ?10 > p.hop_limit"
        "   OR ?11 & ~p.hours OR ?12 & ~p.places OR ?13 & ~p.devices THEN 11"
        " WHEN (SELECT max(id) FROM pass) >= 255 THEN 12"
        " ELSE 0 END FROM pass p WHERE p.id = ?2",
    [INSERT] =
        "INSERT INTO pass (id, origin, creator, permissions, first, last, use_limit, creation_limit, hop_limit,"
        " uses, creations, hours, places, devices, revoked)"
        " SELECT max(id) + 1, ?2, ?1, 0, ?6, ?7, ?8, ?9, ?10, 0, 0, ?11, ?12, ?13, 0 FROM pass",
    [COUNT] = "UPDATE pass SET creations = creations + 1 WHERE id = ?2",
    /* user, pass */
    [NAMED] = "SELECT revoked FROM pass WHERE id = ?2",
    [ENTITLED] =
        "WITH RECURSIVE climb (origin, creator) AS (SELECT origin, creator FROM pass WHERE id = ?2 UNION ALL"
        " SELECT p.origin, p.creator FROM pass p JOIN climb c ON p.id = c.origin)"
        " SELECT EXISTS (SELECT 1 FROM climb WHERE creator = ?1)",
    [MARK] =
        "WITH RECURSIVE below (id) AS (SELECT ?2 UNION ALL SELECT p.id FROM pass p JOIN below b ON p.origin = b.id)"
        " UPDATE pass SET revoked = 1 WHERE NOT revoked AND id IN below",
};

/* Runs a text without results: 0 if all went well. */
int shop_run(struct shop *shop, const char *text) {
    return sqlite3_exec(shop->base, text, NULL, NULL, NULL);
}

/* Opens a register with the tables and rows that the text makes. */
struct shop *shop_open(const char *text) {
    struct shop *shop = calloc(1, sizeof *shop);
    if (shop == NULL || sqlite3_open(":memory:", &shop->base) != SQLITE_OK || shop_run(shop, text) != SQLITE_OK)
        abort();
    for (int at = 0; at < STATEMENTS; at++)
        if (sqlite3_prepare_v2(shop->base, texts[at], -1, &shop->statements[at], NULL) != SQLITE_OK)
            abort();
    return shop;
}

/* Runs a statement with as many of the arguments as it takes: its number, or -3 if it gives no row. */
static int64_t number(struct shop *shop, int at, const int64_t *arguments) {
    sqlite3_stmt *statement = shop->statements[at];
    int parameters = sqlite3_bind_parameter_count(statement);
    for (int parameter = 1; parameter <= parameters; parameter++)
        sqlite3_bind_int64(statement, parameter, arguments[parameter - 1]);
    int64_t answer = sqlite3_step(statement) == SQLITE_ROW ? sqlite3_column_int64(statement, 0) : -3;
    sqlite3_reset(statement);
    return answer;
}

/* session, permission, hour, place, device */
int64_t shop_check(struct shop *shop, const int64_t *arguments) {
    return number(shop, CHECK, arguments);
}

/* session, user, pass, hour, place, device */
int64_t shop_enter(struct shop *shop, const int64_t *arguments) {
    number(shop, BEGIN, NULL);
    int64_t refusal = number(shop, ADMIT, arguments);
    int64_t answer = refusal < 0 ? refusal : -refusal;
    if (refusal == 0) {
        number(shop, ENTER, arguments);
        number(shop, USE, arguments);
    }
    number(shop, COMMIT, NULL);
    return answer;
}

/* user, origin (a pass), hour, place, device, first, last, three limits, three masks */
int64_t shop_create(struct shop *shop, const int64_t *arguments) {
    number(shop, BEGIN, NULL);
    int64_t refusal = number(shop, ORIGIN, arguments);
    int64_t answer = refusal < 0 ? refusal : -refusal;
    if (refusal == 0) {
        number(shop, INSERT, arguments);
        answer = sqlite3_last_insert_rowid(shop->base);
        number(shop, COUNT, arguments);
    }
    number(shop, COMMIT, NULL);
    return answer;
}

/* user, pass */
int64_t shop_revoke(struct shop *shop, const int64_t *arguments) {
    number(shop, BEGIN, NULL);
    int64_t answer = number(shop, NAMED, arguments);
    if (answer >= 0)
        answer = !number(shop, ENTITLED, arguments) ? -6 : answer ? -7 : 0;
    if (answer == 0) {
        number(shop, MARK, arguments);
        answer = sqlite3_changes(shop->base);
    }
    number(shop, COMMIT, NULL);
    return answer;
}
