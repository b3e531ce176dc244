-- The same jobs in Lua: for each case, the processor time of loading the script's text and of one run, in nanoseconds.
-- The environment's ROUNDS says of how many rounds each is the least.
-- As with the engine, a run takes the totals and the readings and gives the new totals.

local jobs = {
  printed_2 = {
    text = [[
      return function(totals, readings)
        if #totals ~= 0 then
          return { totals[1] + readings[1] }
        else
          return { readings[1] }
        end
      end
    ]],
    totals = {}, reading = 1,
  },
  maps = {
    text = [[
      local function map(array, body)
        local made = {}
        for i = 1, #array do made[i] = body(array[i]) end
        return made
      end
      return function(totals, readings)
        local all = { 0, 1, 2, 3, 4, 5, 6, 7, 8, 9, 10, 11, 12, 13, 14, 15 }
        return map({ 0, 1, 2, 3, 4, 5, 6, 7, 8, 9, 10 }, function(x)
          return map(all, function(a)
            return map(all, function(b)
              return map(all, function(c) return x + c end)[16]
            end)[16]
          end)[16]
        end)
      end
    ]],
    totals = {}, reading = 1,
  },
  filters = {
    text = [[
      local function filter(array, guard)
        local kept = {}
        for i = 1, #array do
          if guard(array[i]) ~= 0 then kept[#kept + 1] = array[i] end
        end
        return kept
      end
      return function(totals, readings)
        local all = { 1, 1, 1, 1, 1, 1, 1, 1, 1, 1, 1, 1, 1, 1, 1, 1 }
        return filter({ 0, 0, 0, 0, 0, 0, 0, 0, 0, 0, 0 }, function(x)
          return filter(all, function(a)
            return filter(all, function(b)
              return filter(all, function(c) return x < c and 1 or 0 end)[16]
            end)[16]
          end)[16]
        end)
      end
    ]],
    totals = {}, reading = 1,
  },
  reduces = {
    text = [[
      local function reduce(start, array, body)
        local so_far = start
        for i = 1, #array do so_far = body(so_far, array[i]) end
        return so_far
      end
      return function(totals, readings)
        local all = { 0, 1, 2, 3, 4, 5, 6, 7, 8, 9, 10, 11, 12, 13, 14, 15 }
        return reduce(0, { 0, 1, 2, 3, 4, 5, 6, 7, 8, 9, 10 }, function(s, x)
          return s + reduce(0, all, function(s, a)
            return s + reduce(0, all, function(s, b)
              return s + reduce(0, all, function(s, c) return s + c end)
            end)
          end)
        end)
      end
    ]],
    totals = 0, reading = 1,
  },
  calls = {
    text = [[
      local function fibonacci(n)
        if n < 2 then return n else return fibonacci(n - 1) + fibonacci(n - 2) end
      end
      return function(totals, readings) return fibonacci(readings[1]) end
    ]],
    totals = 0, reading = 20,
  },
}
jobs.printed_2_short = jobs.printed_2
jobs.printed_256 = jobs.printed_2

-- 1,024 nodes: five functions of 50 sums
local function large_text()
  local lines = {}
  for f = 1, 5 do
    lines[#lines + 1] = "local function f" .. f .. "(x)"
    for i = 0, (f < 5 and 50 or 49) - 1 do lines[#lines + 1] = "x = x + " .. i end
    lines[#lines + 1] = "return x end"
  end
  lines[#lines + 1] = "return function(totals, readings) return { f1(f2(f3(f4(f5(readings[#{} + 1]))))) } end"
  return table.concat(lines, "\n")
end
jobs.nodes_1024 = { text = large_text(), totals = {}, reading = 1 }

-- 64 levels: an if in the else part of an if
local function level_text()
  local lines = { "return function(totals, readings)", "local x = readings[1]" }
  for i = 0, 60 do lines[#lines + 1] = "if x < " .. -i .. " then return " .. i .. " else" end
  lines[#lines + 1] = "return totals + x"
  for _ = 0, 60 do lines[#lines + 1] = "end" end
  lines[#lines + 1] = "end"
  return table.concat(lines, "\n")
end
jobs.levels_64 = { text = level_text(), totals = 0, reading = 1 }

local rounds, round_seconds = tonumber(os.getenv("ROUNDS") or 25), 0.01

-- nanoseconds of one call of `work`: the least of several rounds
local function nanoseconds(work)
  local function repeated(times)
    local start = os.clock()
    for _ = 1, times do work() end
    return os.clock() - start
  end
  local times = 1
  while repeated(times) < round_seconds do times = times * 2 end
  local least = math.huge
  for _ = 1, rounds do least = math.min(least, repeated(times)) end
  return least / times * 1e9
end

for name, job in pairs(jobs) do
  local run = assert(load(job.text))()
  local totals = job.totals
  local loading = nanoseconds(function() return assert(load(job.text))() end)
  local running = nanoseconds(function() totals = run(totals, { job.reading }) end)
  print(string.format("%s lua_load=%.0f lua_run=%.0f", name, loading, running))
end
