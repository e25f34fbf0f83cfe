/* What scripts call of the server: the table `redis`. And replies as values of Lua, and back. */
#include "scripts.h"
#ifdef CACHE_LUA
#include <stdio.h>
#include <stdlib.h>
#include <string.h>

enum { NUMBER = 32, ROWS = 8 };

/* == Errors == */

/* Pushes a table with an error's text. */
static void push_error(lua_State *lua, const char *text) {
    lua_newtable(lua);
    lua_pushstring(lua, text);
    lua_setfield(lua, -2, "err");
}

/* Raises an error, or returns it where the script asked for that. */
static int fail(lua_State *lua, bool raises, const char *text) {
    push_error(lua, text);
    return raises ? lua_error(lua) : 1;
}

/* == Replies as values of Lua == */

/* Reads a line behind its mark, and returns where the next one begins. */
static const uint8_t *line_of(const uint8_t *at, struct bytes *line) {
    const uint8_t *end = at + 1;
    while (*end != '\r')
        end++;
    *line = (struct bytes){at + 1, (size_t)(end - at) - 1};
    return end + 2;
}

/* Pushes a table with one field. */
static void push_field(lua_State *lua, const char *name, struct bytes text) {
    lua_newtable(lua);
    lua_pushlstring(lua, (const char *)text.at, text.len);
    lua_setfield(lua, -2, name);
}

/* Pushes the reply that begins there, which is whole, and returns where the next one begins. */
static const uint8_t *push_reply(lua_State *lua, const uint8_t *at) {
    struct bytes line;
    const uint8_t *next = line_of(at, &line);
    int64_t number = strtoll((const char *)line.at, NULL, 10);
    luaL_checkstack(lua, ROWS, "reply is nested too deep");
    switch (*at) {
    case '+': push_field(lua, "ok", line); break;
    case '-': push_field(lua, "err", line); break;
    case ':': lua_pushnumber(lua, (lua_Number)number); break;
    case '$':
        if (number < 0) {
            lua_pushboolean(lua, 0);
            break;
        }
        lua_pushlstring(lua, (const char *)next, (size_t)number);
        return next + number + 2;
    default:
        if (number < 0) {
            lua_pushboolean(lua, 0);
            break;
        }
        lua_createtable(lua, (int)number, 0);
        for (int i = 1; i <= number; i++) {
            next = push_reply(lua, next);
            lua_rawseti(lua, -2, i);
        }
    }
    return next;
}

/* == redis.call == */

/* The bytes of an argument; a number in 17 digits, where it needs so many. Returns false where it is neither a string nor a
 * number. */
static bool word_at(lua_State *lua, int at, char number[NUMBER], struct bytes *word) {
    size_t len;
    if (lua_type(lua, at) == LUA_TNUMBER) {
        snprintf(number, NUMBER, "%.17g", lua_tonumber(lua, at));
        *word = bytes_of(number);
        return true;
    }
    if (lua_type(lua, at) != LUA_TSTRING) return false;
    word->at = (const uint8_t *)lua_tolstring(lua, at, &len);
    word->len = len;
    return true;
}

/* Makes a request of the arguments, for the inner connection. Returns an error, or NULL. */
static const char *take_words(lua_State *lua, struct scripting *it) {
    struct connection *c = &it->inner;
    int count = lua_gettop(lua);
    if (count == 0) return "ERR Please specify at least one argument for this redis lib call";
    it->words.len = 0;
    for (int i = 1; i <= count; i++) {
        char number[NUMBER];
        struct bytes word;
        if (!word_at(lua, i, number, &word)) return "ERR Lua redis lib command arguments must be strings or integers";
        if (!buffer_reserve(&it->words, word.len + 1) || !add_arg(c, it->words.len, word.len))
            return error_of(FACING_NO_MEMORY);
        if (word.len > 0) memcpy(it->words.at + it->words.len, word.at, word.len);
        it->words.len += word.len;
    }
    c->base = it->words.at;
    return NULL;
}

/* Why a script may not make the request; NULL where it may. */
static const char *refused(const struct scripting *it, struct connection *c) {
    const struct command *command = c->command;
    if (command == NULL) return "ERR Unknown Redis command called from script";
    if (!takes_count(command, c->count)) return "ERR Wrong number of args calling Redis command from script";
    if (command->flags & (NO_SCRIPT | OUT_OF_SCRIPTS)) return "ERR This Redis command is not allowed from script";
    if (it->is_read_only && (command->flags & WRITES)) return "ERR Write commands are not allowed from read-only scripts.";
    return cluster_refuses(c) == NULL ? NULL : "ERR Script attempted to access a non local key in a cluster node";
}

/* Makes the request, and pushes its reply. Returns an error, or NULL. */
static const char *make_call(lua_State *lua, struct scripting *it) {
    struct connection *c = &it->inner;
    const char *error;
    c->answered = 0;
    c->out.len = c->sent = 0;
    c->command = command_of(arg(c, 0));
    if (store_select(&c->worker->store, c->db) != FACING_DONE) return error_of(FACING_NO_MEMORY);
    error = refused(it, c);
    if (error == NULL) error = run_command_of(c, c->command);
    if (error != NULL) return error;
    if (c->is_broken) {
        c->is_broken = false;
        return "ERR the reply is longer than the limits allow";
    }
    if (c->out.len > 0) push_reply(lua, c->out.at);
    return NULL;
}

/* redis.call and redis.pcall: the function's upvalue tells whether an error is raised. */
static int call(lua_State *lua) {
    struct scripting *it = scripting_of(lua);
    bool raises = lua_toboolean(lua, lua_upvalueindex(1));
    const char *error;
    it->inner.count = 0;
    error = take_words(lua, it);
    if (error == NULL) error = make_call(lua, it);
    if (error != NULL) return fail(lua, raises, error);
    if (!raises || !lua_istable(lua, -1)) return 1;
    lua_getfield(lua, -1, "err");
    if (lua_isnil(lua, -1)) {
        lua_pop(lua, 1);
        return 1;
    }
    lua_pop(lua, 1);
    return lua_error(lua);
}

/* == The other functions == */

/* redis.error_reply and redis.status_reply. */
static int reply_of(lua_State *lua) {
    const char *name = lua_tostring(lua, lua_upvalueindex(1)), *text;
    if (lua_gettop(lua) != 1 || lua_type(lua, 1) != LUA_TSTRING) {
        push_error(lua, "ERR wrong number or type of arguments");
        return 1;
    }
    text = lua_tostring(lua, 1);
    lua_newtable(lua);
    if (strcmp(name, "ok") == 0)
        lua_pushvalue(lua, 1);
    else
        lua_pushfstring(lua, text[0] == '-' ? "%s" : "ERR %s", text[0] == '-' ? text + 1 : text);
    lua_setfield(lua, -2, name);
    return 1;
}

static int sha1hex(lua_State *lua) {
    char hex[SHA1_HEX];
    size_t len;
    const char *text;
    if (lua_gettop(lua) != 1) return fail(lua, true, "ERR wrong number of arguments");
    text = lua_tolstring(lua, 1, &len);
    sha1_hex((struct bytes){(const uint8_t *)text, text == NULL ? 0 : len}, hex);
    lua_pushstring(lua, hex);
    return 1;
}

/* redis.log: a line of the log, for what is at least a notice. */
static int write_log(lua_State *lua) {
    int count = lua_gettop(lua);
    if (count < 2) return fail(lua, true, "ERR redis.log() requires two arguments or more.");
    if (!lua_isnumber(lua, 1)) return fail(lua, true, "ERR First argument must be a number (log level).");
    if (lua_tonumber(lua, 1) < 0 || lua_tonumber(lua, 1) > 3) return fail(lua, true, "ERR Invalid debug level.");
    if (lua_tonumber(lua, 1) < 2) return 0;
    for (int i = 2; i < count; i++) {
        lua_pushliteral(lua, " ");
        lua_insert(lua, 2 * i - 1);
    }
    lua_concat(lua, 2 * count - 3);
    log_line("script: %.500s", lua_tostring(lua, -1) != NULL ? lua_tostring(lua, -1) : "");
    return 0;
}

static int set_resp(lua_State *lua) {
    return lua_gettop(lua) == 1 && lua_tonumber(lua, 1) == 2 ? 0 : fail(lua, true, "ERR RESP version must be 2.");
}

/* There are no replicas and no files: all is as the script asks. */
static int agree(lua_State *lua) {
    lua_pushboolean(lua, 1);
    return 1;
}

static int ignore(lua_State *lua) {
    (void)lua;
    return 0;
}

/* Adds the table `redis` to the globals. */
void add_calls(lua_State *lua) {
    static const luaL_Reg functions[] = {
        {"sha1hex", sha1hex},          {"log", write_log},   {"setresp", set_resp},
        {"replicate_commands", agree}, {"set_repl", ignore}, {NULL, NULL},
    };
    static const struct {
        const char *name;
        int number;
    } numbers[] = {
        {"LOG_DEBUG", 0}, {"LOG_VERBOSE", 1}, {"LOG_NOTICE", 2},   {"LOG_WARNING", 3}, {"REPL_NONE", 0},
        {"REPL_AOF", 1},  {"REPL_SLAVE", 2},  {"REPL_REPLICA", 2}, {"REPL_ALL", 3},    {"REDIS_VERSION_NUM", 0x07000f}};
    luaL_register(lua, "redis", functions);
    for (int raises = 0; raises < 2; raises++) {
        lua_pushboolean(lua, raises);
        lua_pushcclosure(lua, call, 1);
        lua_setfield(lua, -2, raises ? "call" : "pcall");
    }
    lua_pushliteral(lua, "err");
    lua_pushcclosure(lua, reply_of, 1);
    lua_setfield(lua, -2, "error_reply");
    lua_pushliteral(lua, "ok");
    lua_pushcclosure(lua, reply_of, 1);
    lua_setfield(lua, -2, "status_reply");
    for (size_t i = 0; i < sizeof numbers / sizeof *numbers; i++) {
        lua_pushinteger(lua, numbers[i].number);
        lua_setfield(lua, -2, numbers[i].name);
    }
    lua_pushliteral(lua, REDIS_VERSION);
    lua_setfield(lua, -2, "REDIS_VERSION");
    lua_pop(lua, 1);
}

/* == Values of Lua as replies == */

/* Replies with the text of a field of the table at the top. Returns false where it has none. */
static bool reply_field_of(struct connection *c, lua_State *lua, const char *name,
                           void (*reply)(struct connection *, const char *)) {
    lua_pushstring(lua, name);
    lua_rawget(lua, -2);
    if (lua_type(lua, -1) != LUA_TSTRING) {
        lua_pop(lua, 1);
        return false;
    }
    luaL_gsub(lua, lua_tostring(lua, -1), "\r", " ");
    luaL_gsub(lua, lua_tostring(lua, -1), "\n", " ");
    reply(c, lua_tostring(lua, -1));
    lua_pop(lua, 3);
    return true;
}

static void reply_table(struct connection *c, lua_State *lua) {
    size_t count = 0;
    if (reply_field_of(c, lua, "err", reply_error) || reply_field_of(c, lua, "ok", reply_simple)) return;
    for (bool is_over = false; !is_over; count += !is_over) {
        lua_rawgeti(lua, -1, (int)count + 1);
        is_over = lua_isnil(lua, -1);
        lua_pop(lua, 1);
    }
    reply_list(c, count);
    for (size_t i = 1; i <= count && !c->is_broken; i++) {
        lua_rawgeti(lua, -1, (int)i);
        reply_value(c, lua);
    }
}

/* Replies with the value at the top, and takes it away. */
void reply_value(struct connection *c, lua_State *lua) {
    size_t len;
    lua_Number number;
    const char *text;
    if (!lua_checkstack(lua, ROWS)) {
        reply_error(c, "ERR reached lua stack limit");
        lua_pop(lua, 1);
        return;
    }
    switch (lua_type(lua, -1)) {
    case LUA_TSTRING:
        text = lua_tolstring(lua, -1, &len);
        reply_bulk(c, (struct bytes){(const uint8_t *)text, len});
        break;
    case LUA_TNUMBER:
        number = lua_tonumber(lua, -1);
        reply_number(c, number > -9.2e18 && number < 9.2e18 ? (int64_t)number : INT64_MIN);
        break;
    case LUA_TBOOLEAN: reply_true(c, lua_toboolean(lua, -1)); break;
    case LUA_TTABLE: reply_table(c, lua); break;
    default: reply_none(c);
    }
    lua_pop(lua, 1);
}
#endif
