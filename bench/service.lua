-- For wrk: each thread has visitors of its own, and makes a change of the next one with the questions of the page behind it. One
-- connection a thread, so that an answer is the one of the last request. The changes are due at times that stand fast, and what is
-- timed is from when a change was due: one that waits for an answer before it is late, and counts so. The visitors' cookies and tokens
-- stand in a file.

local ffi = require("ffi")
ffi.cdef("typedef struct { long seconds, nanoseconds; } moment; int clock_gettime(int clock, moment *now);")
local MONOTONIC = 1
local PARTS = { 50, 90, 99, 100 }

local threads = {}
local moment = ffi.new("moment")

local function milliseconds()
  ffi.C.clock_gettime(MONOTONIC, moment)
  return tonumber(moment.seconds) * 1000 + tonumber(moment.nanoseconds) / 1e6
end

function setup(thread)
  thread:set("number", #threads)
  threads[#threads + 1] = thread
end

function init(args)
  visitors, times, refused, at, changes, stale = {}, {}, {}, 0, 0, 0
  pause, due = tonumber(args[2]), nil
  local count, others = 0, tonumber(args[3])
  for line in io.lines(args[1]) do
    local cookie, token = line:match("(%S+) (%S+)")
    if count % others == number then
      visitors[#visitors + 1] = { cookie = cookie, token = token, visit = "null", revision = 0 }
    end
    count = count + 1
  end
  math.randomseed(number + 1)
  offset = pause * number / others
  questions = args[4]
  origin = args[5]
end

function delay()
  local now = milliseconds()
  if pause == 0 then
    due = now
  elseif due then
    due = due + pause
  else
    due = now + offset
  end
  return math.max(0, math.floor(due - now + 0.5))
end

function request()
  at = at % #visitors + 1
  local visitor = visitors[at]
  local id = string.format("%d-%d-%d", number, at, visitor.revision)
  local body = string.format('{"visit":%s,"revision":%d,"change":"%s","line":"set /bill %d.%02d","questions":%s}',
    visitor.visit, visitor.revision, id, math.random(1, 4999), math.random(0, 99), questions)
  local headers = { ["Cookie"] = visitor.cookie, ["X-Token"] = visitor.token, ["Origin"] = origin, ["Content-Type"] = "application/json" }
  return wrk.format("POST", "/answer", headers, body)
end

function response(status, headers, body)
  local visitor = visitors[at]
  if status ~= 200 then
    refused[#refused + 1] = status
    return
  end
  times[#times + 1] = milliseconds() - due
  visitor.visit = body:match('"visit":("[^"]*")') or "null"
  visitor.revision = tonumber(body:match('"revision":(%d+)'))
  if body:match('"stale":true') then stale = stale + 1 else changes = changes + 1 end
end

function done()
  local all, changes, stale, refused = {}, 0, 0, {}
  for _, thread in ipairs(threads) do
    for _, time in ipairs(thread:get("times")) do all[#all + 1] = time end
    for _, status in ipairs(thread:get("refused")) do refused[#refused + 1] = status end
    changes, stale = changes + thread:get("changes"), stale + thread:get("stale")
  end
  table.sort(all)
  io.write(string.format("changes answered: %d, stale: %d, of another status: %d %s\n", changes, stale, #refused, table.concat(refused, " ")))
  for _, part in ipairs(#all > 0 and PARTS or {}) do
    io.write(string.format("%d of 100 within %.1f ms of when they were due\n", part, all[math.ceil(#all * part / 100)]))
  end
end
