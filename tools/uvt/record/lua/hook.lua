-- Names the functions of a program in Lua that luv calls, for the recorder: ./uvt record gives it by LUA_INIT.
--
-- Each function that is handed to luv passes by here: which it is, which line handed it over, when it begins and ends; of a timer when it was
-- started, and where it is stopped or unreferenced; and which line asked for a request of the pool. (Lines J of the log.)
local path = os.getenv('UVT_RECORDER')
local function given(name)
  return package.loadlib(path, 'uvt_lua_' .. name)
end
local note = path and os.getenv('UVT_LOG') and given('note')
local place, asking = note and given('place'), note and given('asking')
if not place or not asking then return end
given('language')('Lua')

local getinfo, getlocal, unpack = debug.getinfo, debug.getlocal, table.unpack or unpack
local here = getinfo(1, 'S').short_src
local uv

-- ---- places

local places = {}
local function number(name, file, line)
  local text = (name .. ' ' .. file .. ':' .. line):gsub('[^ -~]', '?')
  places[text] = places[text] or place(text)
  return places[text]
end

local function file_of(info)
  return (info.source:match('^@(.*)') or '-'):gsub(' ', '_')
end

local function in_locals(func)
  for level = 3, 20 do
    local info = getinfo(level, 'S')
    if not info then return end
    for at = 1, 200 do
      local name, value = getlocal(level, at)
      if not name then break end
      if value == func and info.short_src ~= here and name:match('^[%a_]') then return name end
    end
  end
end

local function in_upvalues(func)
  for level = 3, 20 do
    local info = getinfo(level, 'f')
    if not info then return end
    for at = 1, 200 do
      local name, value = debug.getupvalue(info.func, at)
      if not name then break end
      if value == func and name ~= '' then return name end
    end
  end
end

local function in_globals(func)
  for name, value in pairs(_G) do
    if value == func then return name end
  end
end

-- (of one that was handed over: what it was called there)
local names = setmetatable({}, { __mode = 'k' })
local function name_of(func)
  names[func] = names[func] or in_globals(func) or in_locals(func) or in_upvalues(func) or '(anonymous)'
  return names[func]
end

-- The program's own line, -1 where none is under way; and of a function the line at which it begins.
local function asked_at()
  for level = 2, 100 do
    local info = getinfo(level, 'Slnf')
    if not info then return -1 end
    if info.short_src ~= here and info.what ~= 'C' then
      return number(info.what == 'main' and '(main)' or names[info.func] or info.name or '(anonymous)', file_of(info), info.currentline)
    end
  end
  return -1
end

local function place_of(func)
  local info = getinfo(func, 'S')
  return info.what == 'C' and -1 or number(name_of(func), file_of(info), info.linedefined)
end

-- ---- callbacks

local ids, started = 0, setmetatable({}, { __mode = 'k' })

-- Of a timer: when it was started, by the loop's time, and its milliseconds.
local function run(id, timer)
  if not timer then return note('run ' .. id) end
  note(('run %d %d %d%s'):format(id, timer.start, timer.delay, timer.even and ' 1' or ''))
  timer.start, timer.delay = uv.now(), timer.rep
  if timer.rep == 0 then timer.over = true end
end

local function called(func, kind, timer)
  ids = ids + 1
  local id = ids
  note(('new %d %s %d %d %d'):format(id, kind, place_of(func), asked_at(), timer and timer.delay or 0))
  if timer then timer.id = id end
  local function done(...)
    note('ran ' .. id)
    return ...
  end
  return function(...)
    run(id, timer)
    return done(func(...))
  end
end

local function start_timer(words)
  local handle, delay, rep, func = words[1], words[2], words[3], words[4]
  if type(handle) ~= 'userdata' or type(func) ~= 'function' or type(delay) ~= 'number' or type(rep) ~= 'number' then return end
  delay, rep = math.floor(delay), math.floor(rep)
  local timer = { start = uv.now(), delay = delay, rep = rep, even = rep > 0 and rep == delay }
  words[4] = called(func, timer.even and 'interval' or 'timer', timer)
  started[handle] = timer
end

local function end_timer(words)
  local timer = words[1] ~= nil and started[words[1]]
  if timer and not timer.over then note(('gone %d %d'):format(timer.id, asked_at())) end
  if timer then started[words[1]] = nil end
end

local function refer(is)
  return function(words)
    local timer = words[1] ~= nil and started[words[1]]
    if timer and not timer.over then note(('ref %d %d %d'):format(timer.id, is, asked_at())) end
  end
end

local SPECIAL = { timer_start = start_timer, timer_stop = end_timer, close = end_timer, ref = refer(1), unref = refer(0) }
-- Functions of these run in a Lua of their own, which has nothing of this one: so they stay as they are.
local ELSEWHERE = { new_thread = math.huge, new_work = 1 }
local POOL = { queue_work = true, getaddrinfo = true, getnameinfo = true, random = true }

local function watched(word, real)
  local special, first = SPECIAL[word], ELSEWHERE[word] or 0
  local pooled = POOL[word] or word:match('^fs_') ~= nil
  local function done(...)
    asking('-1')
    return ...
  end
  return function(...)
    local words = { n = select('#', ...), ... }
    if special then special(words) end
    if word ~= 'timer_start' then
      for at = first + 1, words.n do
        if type(words[at]) == 'function' then words[at] = called(words[at], 'callback') end
      end
    end
    if not pooled then return real(unpack(words, 1, words.n)) end
    asking(tostring(asked_at()))
    return done(real(unpack(words, 1, words.n)))
  end
end

-- ---- luv, as a program gets it: its functions, and those of its handles

local function watch_methods()
  for name, kind in pairs(debug.getregistry()) do
    local methods = type(name) == 'string' and name:match('^l?uv_') and type(kind) == 'table' and rawget(kind, '__index')
    if type(methods) == 'table' then
      local own = name:match('^l?uv_(.*)')
      local found = {}
      for word, value in pairs(methods) do
        local whole = own == 'work_ctx' and word .. '_work' or own .. '_' .. word
        local known = SPECIAL[whole] or POOL[whole]
        if type(value) == 'function' then found[word] = watched(known and whole or word, value) end
      end
      for word, value in pairs(found) do methods[word] = value end
    end
  end
end

local real_require = require
function require(name)
  local module = real_require(name)
  if name ~= 'luv' or uv then return module end
  uv = {}
  for word, value in pairs(module) do uv[word] = value end
  watch_methods()
  for word, value in pairs(uv) do
    if type(value) == 'function' then module[word] = watched(word, value) end
  end
  return module
end
