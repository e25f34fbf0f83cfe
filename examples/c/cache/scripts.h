/* Scripts in Lua 5.1, as Redis has them; without CACHE_LUA there are none. */
#ifndef CACHE_SCRIPTS_H
#define CACHE_SCRIPTS_H
#include "cache.h"
#ifdef CACHE_LUA
#include <lauxlib.h>
#include <lua.h>
#include <lualib.h>

/* What all scripts share. A script runs alone, and only who runs alone touches it. */
struct scripting {
    lua_State *lua;
    struct connection inner;   /* makes the commands that scripts call */
    struct buffer words;       /* of such a command */
    size_t used, most, loaded; /* bytes of Lua's memory, and how many scripts are loaded */
    int64_t left;              /* instructions until the script is ended */
    uint64_t until;            /* when it is ended all the same, in milliseconds of the thread's processor time */
    bool is_read_only;
};

/* sandbox.c */
struct scripting *scripting_of(lua_State *lua);
bool sandbox_open(struct scripting *it);
void sandbox_begin(lua_State *lua, uint64_t instructions);
void sandbox_end(lua_State *lua);
int sandbox_error(lua_State *lua);

/* calls.c */
void add_calls(lua_State *lua);
void reply_value(struct connection *c, lua_State *lua);
#endif
#endif
