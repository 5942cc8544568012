-- Countdown's loop by function calls, for tools/bench.py: lua5.4 countdown.lua TURNS
local function like_it(x) return x end
local function subtract(x, y) return x - y end
local function lt_or_eq(x, y) return x <= y end

local host = { [0] = like_it, [2] = subtract, [5] = lt_or_eq }

local function countdown(argument)
  local t0 = host[0](argument)
  while true do
    local t1 = host[5](t0, 0)
    if t1 then
      return t0
    end
    t0 = host[2](t0, 4)
  end
end

print(countdown(4 * tonumber(arg[1])))
