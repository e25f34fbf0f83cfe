/* EVAL, EVALSHA and SCRIPT. A script runs alone, and its reply is made whole before the client has a part of it. */
#include "scripts.h"
#ifdef CACHE_LUA
#include <stdio.h>
#include <string.h>

/* Lua may have so many parts of the memory; beyond half of them all loaded scripts are forgotten. */
enum { MEMORY_PART = 8 };

/* What EVAL is asked to run. */
struct job {
    struct connection *c;
    struct bytes text; /* or the script's name */
    bool is_named;
    size_t keys;
    char name[SHA1_HEX];
    const char *error;
};

/* Makes what scripts share, when the first one comes. Returns NULL where there is no memory. */
static struct scripting *scripting(struct cache *cache) {
    struct scripting *it = cache->scripting;
    if (it != NULL) return it;
    it = heap_zeros(sizeof *it);
    if (it == NULL) return NULL;
    it->most = cache->limits.memory / MEMORY_PART;
    if (!sandbox_open(it)) {
        heap_free(it);
        return NULL;
    }
    cache->scripting = it;
    return it;
}

void scripts_close(struct cache *cache) {
    struct scripting *it = cache->scripting;
    if (it == NULL) return;
    if (it->lua != NULL) lua_close(it->lua);
    buffer_free(&it->words);
    buffer_free(&it->inner.out);
    heap_free(it->inner.args);
    heap_free(it);
    cache->scripting = NULL;
}

/* == Loaded scripts == */

static void write_name(struct bytes text, char name[SHA1_HEX]) {
    for (size_t i = 0; i < SHA1_HEX - 1; i++)
        name[i] = (char)(text.at[i] >= 'A' && text.at[i] <= 'Z' ? text.at[i] | 32 : text.at[i]);
    name[SHA1_HEX - 1] = 0;
}

/* Pushes the loaded script of a name. Returns false where there is none. */
static bool push_script(lua_State *lua, const char *name) {
    lua_getfield(lua, LUA_REGISTRYINDEX, "scripts");
    lua_getfield(lua, -1, name);
    lua_remove(lua, -2);
    if (lua_isfunction(lua, -1)) return true;
    lua_pop(lua, 1);
    return false;
}

/* Loads a script, and pushes it. A first line such as `#!lua` is left out. Returns false, and pushes what is wrong, where it
 * cannot. */
static bool load(lua_State *lua, struct bytes text, const char *name) {
    const uint8_t *end = text.len > 1 && memcmp(text.at, "#!", 2) == 0 ? memchr(text.at, '\n', text.len) : NULL;
    if (push_script(lua, name)) return true;
    if (end != NULL) text = (struct bytes){end, text.len - (size_t)(end - text.at)};
    if (text.len > 0 && text.at[0] == (uint8_t)LUA_SIGNATURE[0]) {
        lua_pushliteral(lua, "attempt to load a binary chunk");
        return false;
    }
    if (luaL_loadbuffer(lua, (const char *)text.at, text.len, "@user_script") != 0) return false;
    lua_getfield(lua, LUA_REGISTRYINDEX, "scripts");
    lua_pushvalue(lua, -2);
    lua_setfield(lua, -2, name);
    lua_pop(lua, 1);
    scripting_of(lua)->loaded++;
    return true;
}

static void forget_scripts(lua_State *lua) {
    lua_newtable(lua);
    lua_setfield(lua, LUA_REGISTRYINDEX, "scripts");
    scripting_of(lua)->loaded = 0;
    lua_gc(lua, LUA_GCCOLLECT, 0);
}

/* == EVAL == */

/* Keeps an error, for a reply: its text without line ends. */
static const char *error_as(struct connection *c, const char *before, const char *text, const char *name) {
    char *error = c->worker->error;
    int len = snprintf(error, sizeof c->worker->error, "%s%.600s", before, text != NULL ? text : "unknown error");
    for (char *at = error; *at != 0; at++)
        if (*at == '\r' || *at == '\n') *at = ' ';
    if (name != NULL) snprintf(error + len, sizeof c->worker->error - (size_t)len, "%s", name);
    return error;
}

/* The error at the top, as it is told: with the script's name and the place where it was raised. */
static const char *error_at_top(struct connection *c, lua_State *lua, const char *name) {
    char place[128] = "";
    const char *text;
    if (!lua_istable(lua, -1)) return error_as(c, "ERR ", lua_tostring(lua, -1), NULL);
    lua_getfield(lua, -1, "line");
    lua_getfield(lua, -2, "source");
    if (lua_isnumber(lua, -2) && lua_isstring(lua, -1))
        snprintf(place, sizeof place, " script: %s, on %.40s:%d.", name, lua_tostring(lua, -1), (int)lua_tointeger(lua, -2));
    lua_getfield(lua, -3, "err");
    text = lua_tostring(lua, -1);
    return error_as(c, "", text != NULL ? text : "ERR unknown error", place);
}

static void push_words(lua_State *lua, const struct connection *c, size_t from, size_t count) {
    lua_createtable(lua, (int)count, 0);
    for (size_t i = 0; i < count; i++) {
        lua_pushlstring(lua, (const char *)arg(c, from + i).at, arg(c, from + i).len);
        lua_rawseti(lua, -2, (int)i + 1);
    }
}

/* Runs a script that is at the top. Leaves an error in the worker, and returns it, or NULL. */
static const char *run_at_top(struct connection *c, lua_State *lua, const struct job *job) {
    struct scripting *it = scripting_of(lua);
    bool is_done;
    push_words(lua, c, 3, job->keys);
    push_words(lua, c, 3 + job->keys, c->count - 3 - job->keys);
    sandbox_begin(lua, c->worker->cache->limits.instructions);
    lua_pushcfunction(lua, sandbox_error);
    lua_insert(lua, -2);
    is_done = lua_pcall(lua, 0, 1, -2) == 0;
    sandbox_end(lua);
    if (!is_done) return error_at_top(c, lua, job->name);
    it->inner.out.len = it->inner.sent = 0;
    it->inner.answered = 0;
    it->inner.resp = c->resp;
    reply_value(&it->inner, lua);
    it->inner.resp = 2;
    return NULL;
}

/* Finds the script, and runs it: what goes wrong with Lua's memory ends this alone. */
static int run_protected(lua_State *lua) {
    struct job *job = lua_touserdata(lua, 1);
    struct connection *c = job->c;
    struct scripting *it = scripting_of(lua);
    lua_settop(lua, 0);
    if (job->is_named && !push_script(lua, job->name)) {
        job->error = "NOSCRIPT No matching script. Please use EVAL.";
    } else if (!job->is_named && !load(lua, job->text, job->name)) {
        job->error = error_as(c, "ERR Error compiling script (new function): ", lua_tostring(lua, -1), NULL);
    } else {
        job->error = run_at_top(c, lua, job);
    }
    if (it->used > it->most / 2) lua_gc(lua, LUA_GCCOLLECT, 0);
    if (it->used > it->most / 2) forget_scripts(lua);
    return 0;
}

/* Runs a script, and replies with what it returns. */
static const char *run_job(struct connection *c, struct scripting *it, struct job *job) {
    struct lua_State *lua = it->lua;
    const char *error;
    it->inner.worker = c->worker;
    it->inner.is_known = true;
    it->inner.resp = 2;
    it->inner.db = c->db;
    it->inner.is_broken = false;
    it->is_read_only = (c->command->flags & READS) != 0;
    lua_settop(lua, 0);
    error = lua_cpcall(lua, run_protected, job) != 0 ? "ERR Error running script: not enough memory" : job->error;
    lua_sethook(lua, NULL, 0, 0);
    lua_settop(lua, 0);
    if (error == NULL && it->inner.is_broken) break_connection(c, it->inner.why);
    if (error == NULL) reply_raw(c, (struct bytes){it->inner.out.at, it->inner.out.len});
    if (it->inner.out.room > KEPT) buffer_free(&it->inner.out);
    if (it->words.room > KEPT) buffer_free(&it->words);
    hold_nothing(&it->inner);
    (void)store_select(&c->worker->store, c->db);
    return error;
}

/* EVAL and EVAL_RO; with the number 1, EVALSHA and EVALSHA_RO. */
const char *run_eval(struct connection *c) {
    struct scripting *it;
    struct job job = {.c = c, .text = arg(c, 1), .is_named = c->command->number == 1};
    int64_t keys;
    if (!number_of(arg(c, 2), &keys)) return NOT_A_NUMBER;
    if (keys > (int64_t)c->count - 3) return "ERR Number of keys can't be greater than number of args";
    if (keys < 0) return "ERR Number of keys can't be negative";
    job.keys = (size_t)keys;
    if (job.is_named && job.text.len != SHA1_HEX - 1) return "NOSCRIPT No matching script. Please use EVAL.";
    job.is_named ? write_name(job.text, job.name) : sha1_hex(job.text, job.name);
    it = scripting(c->worker->cache);
    return it == NULL ? error_of(FACING_NO_MEMORY) : run_job(c, it, &job);
}

/* == SCRIPT == */

static int load_protected(lua_State *lua) {
    struct job *job = lua_touserdata(lua, 1);
    if (!load(lua, job->text, job->name))
        job->error = error_as(job->c, "ERR Error compiling script (new function): ", lua_tostring(lua, -1), NULL);
    return 0;
}

static const char *script_load(struct connection *c) {
    struct scripting *it = scripting(c->worker->cache);
    struct job job = {.c = c, .text = arg(c, 2)};
    if (it == NULL) return error_of(FACING_NO_MEMORY);
    sha1_hex(job.text, job.name);
    if (lua_cpcall(it->lua, load_protected, &job) != 0) job.error = error_of(FACING_NO_MEMORY);
    lua_settop(it->lua, 0);
    if (job.error == NULL) reply_bulk(c, bytes_of(job.name));
    return job.error;
}

static const char *script_exists(struct connection *c) {
    struct scripting *it = c->worker->cache->scripting;
    reply_list(c, c->count - 2);
    for (size_t i = 2; i < c->count; i++) {
        char name[SHA1_HEX];
        bool is_there = it != NULL && arg(c, i).len == SHA1_HEX - 1;
        if (is_there) write_name(arg(c, i), name);
        is_there = is_there && push_script(it->lua, name);
        if (it != NULL) lua_settop(it->lua, 0);
        reply_number(c, is_there);
    }
    return NULL;
}

static const char *script_flush(struct connection *c) {
    bool is_right = c->count == 2 || (c->count == 3 && (is_word(arg(c, 2), "SYNC") || is_word(arg(c, 2), "ASYNC")));
    if (!is_right) return "ERR SCRIPT FLUSH only support SYNC|ASYNC option";
    scripts_close(c->worker->cache);
    reply_simple(c, "OK");
    return NULL;
}

/* While a script runs no other request does. */
static const char *script_kill(struct connection *c) {
    (void)c;
    return "NOTBUSY No scripts in execution right now.";
}

const char *run_script(struct connection *c) {
    static const struct command parts[] = {
        {"script|exists", script_exists, -3, ALONE, 0, 0, 0, 0},
        {"script|flush", script_flush, -2, ALONE, 0, 0, 0, 0},
        {"script|kill", script_kill, 2, 0, 0, 0, 0, 0},
        {"script|load", script_load, 3, ALONE, 0, 0, 0, 0},
    };
    return run_part(c, parts, sizeof parts / sizeof *parts);
}
#else
void scripts_close(struct cache *cache) {
    (void)cache;
}
#endif
