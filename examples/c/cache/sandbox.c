/* Where scripts run: Lua without files, modules, bytecode and debugging, with tables that no script can change, and with a
 * limit of memory and of instructions. */
#define _GNU_SOURCE
#include "scripts.h"
#ifdef CACHE_LUA
#include <string.h>
#include <time.h>

/* How often the instructions are counted, and the longest pattern: each of its items may take some of the C stack. */
enum { STEP = 1000, LONGEST_PATTERN = 4096 };

/* What an instruction costs that goes over bytes; and the most processor time, since some are long. */
enum { BYTES = 8, MOST_MS = 1000 };

static const char readonly[] = "Attempt to modify a readonly table";
/* The key of what marks the metatable of a table that scripts cannot change. */
static const char mark;

struct scripting *scripting_of(lua_State *lua) {
    void *it;
    lua_getallocf(lua, &it);
    return it;
}

static void *resize(void *of, void *at, size_t before, size_t size) {
    struct scripting *it = of;
    void *moved;
    if (size == 0) {
        it->used -= before;
        heap_free(at);
        return NULL;
    }
    if (size > before && size - before > it->most - (it->used < it->most ? it->used : it->most)) return NULL;
    moved = heap_resize(at, size);
    if (moved != NULL) it->used += size - before;
    return moved;
}

/* The processor time of this thread, in milliseconds. */
static uint64_t own_time(void) {
    struct timespec now;
    clock_gettime(CLOCK_THREAD_CPUTIME_ID, &now);
    return (uint64_t)now.tv_sec * 1000 + (uint64_t)now.tv_nsec / 1000000;
}

/* Counts instructions. Once there are none left each further one is an error, so that no `pcall` goes on for long. */
static void count(lua_State *lua, lua_Debug *at) {
    struct scripting *it = scripting_of(lua);
    it->left -= STEP;
    if (it->left > 0 && own_time() < it->until) return;
    it->left = 0;
    lua_sethook(lua, count, LUA_MASKCOUNT, 1);
    lua_getinfo(lua, "Sl", at);
    lua_pushfstring(lua, "%s:%d: Script killed: it is at its limit of instructions", at->short_src, at->currentline);
    lua_error(lua);
}

/* == Tables that cannot be changed == */

static int refuse(lua_State *lua) {
    return luaL_error(lua, readonly);
}

/* Puts an empty table over the one at the top, which shows all that it has, and cannot be changed. */
static void seal(lua_State *lua) {
    lua_newtable(lua);
    lua_newtable(lua);
    lua_pushvalue(lua, -3);
    lua_setfield(lua, -2, "__index");
    lua_pushcfunction(lua, refuse);
    lua_setfield(lua, -2, "__newindex");
    lua_pushboolean(lua, 0);
    lua_setfield(lua, -2, "__metatable");
    lua_pushlightuserdata(lua, (void *)(uintptr_t)&mark);
    lua_pushboolean(lua, 1);
    lua_rawset(lua, -3);
    lua_setmetatable(lua, -2);
    lua_replace(lua, -2);
}

static bool is_sealed(lua_State *lua, int at) {
    bool is_so;
    if (!lua_getmetatable(lua, at)) return false;
    lua_pushlightuserdata(lua, (void *)(uintptr_t)&mark);
    lua_rawget(lua, -2);
    is_so = lua_toboolean(lua, -1);
    lua_pop(lua, 2);
    return is_so;
}

static int raw_set(lua_State *lua) {
    luaL_checktype(lua, 1, LUA_TTABLE);
    luaL_checkany(lua, 2);
    luaL_checkany(lua, 3);
    if (is_sealed(lua, 1)) return luaL_error(lua, readonly);
    lua_settop(lua, 3);
    lua_rawset(lua, 1);
    return 1;
}

static int set_metatable(lua_State *lua) {
    luaL_checktype(lua, 1, LUA_TTABLE);
    if (is_sealed(lua, 1)) return luaL_error(lua, readonly);
    lua_pushvalue(lua, lua_upvalueindex(1));
    lua_insert(lua, 1);
    lua_call(lua, lua_gettop(lua) - 1, 1);
    return 1;
}

/* == Functions in place of Lua's == */

/* Loads text alone: the system's Lua does not check bytecode. */
static int load_string(lua_State *lua) {
    size_t len;
    const char *text = luaL_checklstring(lua, 1, &len), *name = luaL_optstring(lua, 2, text);
    if (len > 0 && text[0] == LUA_SIGNATURE[0]) {
        lua_pushnil(lua);
        lua_pushliteral(lua, "attempt to load a binary chunk");
        return 2;
    }
    if (luaL_loadbuffer(lua, text, len, name) == 0) return 1;
    lua_pushnil(lua);
    lua_insert(lua, -2);
    return 2;
}

/* As Lua's, but that the handler runs when the stack is unwound: inside of the hook it would not be counted. */
static int protect(lua_State *lua) {
    luaL_checkany(lua, 2);
    lua_settop(lua, 2);
    lua_pushvalue(lua, 1);
    if (lua_pcall(lua, 0, LUA_MULTRET, 0) == 0) {
        lua_pushboolean(lua, 1);
        lua_replace(lua, 2);
        return lua_gettop(lua) - 1;
    }
    lua_pushvalue(lua, 2);
    lua_insert(lua, -2);
    lua_call(lua, 1, 1);
    lua_pushboolean(lua, 0);
    lua_insert(lua, -2);
    return 2;
}

/* As Lua's, but that an error of `redis.call` is its text. */
static int protect_plainly(lua_State *lua) {
    luaL_checkany(lua, 1);
    if (lua_pcall(lua, lua_gettop(lua) - 1, LUA_MULTRET, 0) == 0) {
        lua_pushboolean(lua, 1);
        lua_insert(lua, 1);
        return lua_gettop(lua);
    }
    lua_pushboolean(lua, 0);
    lua_insert(lua, -2);
    if (lua_istable(lua, -1)) {
        lua_getfield(lua, -1, "err");
        if (lua_isstring(lua, -1))
            lua_replace(lua, -2);
        else
            lua_pop(lua, 1);
    }
    return 2;
}

/* string.rep, within the memory: Lua's copies until there is none. */
static int repeat(lua_State *lua) {
    struct scripting *it = scripting_of(lua);
    size_t len;
    lua_Number count = luaL_checknumber(lua, 2);
    luaL_checklstring(lua, 1, &len);
    if (count * (lua_Number)len > (lua_Number)it->most) return luaL_error(lua, "not enough memory");
    if (count > 0) it->left -= (int64_t)(count * (lua_Number)len) / BYTES;
    lua_pushvalue(lua, lua_upvalueindex(1));
    lua_insert(lua, 1);
    lua_call(lua, 2, 1);
    return 1;
}

static int bound_pattern(lua_State *lua) {
    luaL_checkstring(lua, 1);
    luaL_checkstring(lua, 2);
    if (lua_objlen(lua, 2) > LONGEST_PATTERN) return luaL_error(lua, "pattern too long");
    scripting_of(lua)->left -= (int64_t)lua_objlen(lua, 1) / BYTES;
    lua_pushvalue(lua, lua_upvalueindex(1));
    lua_insert(lua, 1);
    lua_call(lua, lua_gettop(lua) - 1, LUA_MULTRET);
    return lua_gettop(lua);
}

static int no_global(lua_State *lua) {
    return luaL_error(lua, "Script attempted to access nonexistent global variable '%s'",
                      lua_isstring(lua, 2) ? lua_tostring(lua, 2) : "?");
}

/* == The sandbox == */

/* Puts a function in place of one of the table at the top, which it may call. */
static void replace(lua_State *lua, const char *name, lua_CFunction function) {
    lua_getfield(lua, -1, name);
    lua_pushcclosure(lua, function, 1);
    lua_setfield(lua, -2, name);
}

static void remove_all(lua_State *lua, const char *const *names) {
    for (; *names != NULL; names++) {
        lua_pushnil(lua);
        lua_setfield(lua, -2, *names);
    }
}

static void open_library(lua_State *lua, const char *name, lua_CFunction open) {
    lua_pushcfunction(lua, open);
    lua_pushstring(lua, name);
    lua_call(lua, 1, 0);
}

/* Bounds the patterns of the strings' functions, and takes away what writes bytecode. */
static void bound_strings(lua_State *lua) {
    static const char *const of_patterns[] = {"find", "gfind", "gmatch", "gsub", "match"}, *const gone[] = {"dump", NULL};
    lua_getglobal(lua, "string");
    for (size_t i = 0; i < sizeof of_patterns / sizeof *of_patterns; i++)
        replace(lua, of_patterns[i], bound_pattern);
    replace(lua, "rep", repeat);
    remove_all(lua, gone);
    lua_pop(lua, 1);
}

/* Seals a library, and gives a string's methods the sealed one. */
static void seal_library(lua_State *lua, const char *name) {
    lua_getglobal(lua, name);
    seal(lua);
    if (strcmp(name, "string") == 0) {
        lua_pushliteral(lua, "");
        lua_getmetatable(lua, -1);
        lua_pushvalue(lua, -3);
        lua_setfield(lua, -2, "__index");
        lua_pushboolean(lua, 0);
        lua_setfield(lua, -2, "__metatable");
        lua_pop(lua, 2);
    }
    lua_setglobal(lua, name);
}

/* Makes what scripts see: in the registry, `globals`, and `scripts` by their names. */
static int fill(lua_State *lua) {
    static const char *const gone[] = {"dofile",   "getfenv", "load",    "loadfile", "module",
                                       "newproxy", "print",   "require", "setfenv",  NULL};
    static const char *const libraries[] = {"coroutine", "math", "redis", "string", "table"};
    open_library(lua, "", luaopen_base);
    open_library(lua, LUA_TABLIBNAME, luaopen_table);
    open_library(lua, LUA_STRLIBNAME, luaopen_string);
    open_library(lua, LUA_MATHLIBNAME, luaopen_math);
    add_calls(lua);
    bound_strings(lua);
    for (size_t i = 0; i < sizeof libraries / sizeof *libraries; i++)
        seal_library(lua, libraries[i]);
    lua_pushvalue(lua, LUA_GLOBALSINDEX);
    remove_all(lua, gone);
    lua_pushcfunction(lua, load_string);
    lua_setfield(lua, -2, "loadstring");
    lua_pushcfunction(lua, raw_set);
    lua_setfield(lua, -2, "rawset");
    lua_pushcfunction(lua, protect);
    lua_setfield(lua, -2, "xpcall");
    lua_pushcfunction(lua, protect_plainly);
    lua_setfield(lua, -2, "pcall");
    replace(lua, "setmetatable", set_metatable);
    lua_newtable(lua);
    lua_pushcfunction(lua, no_global);
    lua_setfield(lua, -2, "__index");
    lua_setmetatable(lua, -2);
    lua_setfield(lua, LUA_REGISTRYINDEX, "globals");
    lua_newtable(lua);
    lua_setfield(lua, LUA_REGISTRYINDEX, "scripts");
    return 0;
}

/* Returns false where there is no memory. */
bool sandbox_open(struct scripting *it) {
    it->lua = lua_newstate(resize, it);
    if (it->lua == NULL) return false;
    if (lua_cpcall(it->lua, fill, NULL) == 0) return true;
    lua_close(it->lua);
    it->lua = NULL;
    return false;
}

/* Gives the function below the tables KEYS and ARGV, at the top, globals of its own, with these two. */
void sandbox_begin(lua_State *lua, uint64_t instructions) {
    lua_newtable(lua);
    lua_insert(lua, -3);
    lua_setfield(lua, -3, "ARGV");
    lua_setfield(lua, -2, "KEYS");
    lua_newtable(lua);
    lua_getfield(lua, LUA_REGISTRYINDEX, "globals");
    lua_setfield(lua, -2, "__index");
    lua_setmetatable(lua, -2);
    lua_pushvalue(lua, -1);
    seal(lua);
    lua_pushvalue(lua, -1);
    lua_setfield(lua, -3, "_G");
    lua_pushvalue(lua, -1);
    lua_replace(lua, LUA_GLOBALSINDEX);
    lua_setfenv(lua, -3);
    lua_pop(lua, 1);
    scripting_of(lua)->left = (int64_t)instructions;
    scripting_of(lua)->until = own_time() + MOST_MS;
    lua_sethook(lua, count, LUA_MASKCOUNT, STEP);
}

/* Takes away what a script left in the tables of libraries by functions that look at no metatable. */
void sandbox_end(lua_State *lua) {
    static const char *const libraries[] = {"coroutine", "math", "redis", "string", "table"};
    lua_sethook(lua, NULL, 0, 0);
    lua_getfield(lua, LUA_REGISTRYINDEX, "globals");
    for (size_t i = 0; i < sizeof libraries / sizeof *libraries; i++) {
        lua_getfield(lua, -1, libraries[i]);
        for (lua_pushnil(lua); lua_next(lua, -2) != 0; lua_pushnil(lua)) {
            lua_pop(lua, 1);
            lua_pushnil(lua);
            lua_rawset(lua, -3);
        }
        lua_pop(lua, 1);
    }
    lua_pop(lua, 1);
}

/* Makes a table of an error, with the place where it was raised. */
int sandbox_error(lua_State *lua) {
    lua_Debug at;
    bool is_known = lua_getstack(lua, 1, &at) && lua_getinfo(lua, "Sl", &at);
    if (is_known && at.what[0] == 'C') is_known = lua_getstack(lua, 2, &at) && lua_getinfo(lua, "Sl", &at);
    lua_settop(lua, 1);
    if (!lua_istable(lua, 1)) {
        const char *text = lua_tostring(lua, 1);
        lua_newtable(lua);
        lua_pushfstring(lua, "ERR %s", text != NULL ? text : luaL_typename(lua, 1));
        lua_setfield(lua, -2, "err");
    }
    if (!is_known) return 1;
    lua_pushstring(lua, at.source);
    lua_setfield(lua, -2, "source");
    lua_pushinteger(lua, at.currentline);
    lua_setfield(lua, -2, "line");
    return 1;
}
#endif
