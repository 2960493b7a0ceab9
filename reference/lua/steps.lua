-- The work of three rows of the bench, by hand and without a monitor: what a script writer would do in Lua.
-- Usage: lua5.4 steps.lua WORK STEPS REPETITIONS
-- Prints the median of the repetitions, in nanoseconds of processor time a step. The steps are those that the monitor makes for the same work.

local work, steps, repetitions = arg[1], tonumber(arg[2]), tonumber(arg[3])

local function node(parent, value)
  return { value = value, parent = parent, children = 0 }
end

-- Puts a node behind the last child.
local function append(parent, last, value)
  local new = node(parent, value)
  if last then last.right = new else parent.first = new end
  parent.children = parent.children + 1
  return new
end

-- Each makes what it works on, and hands back the work.
local works = {}

-- Three steps a turn: while, sum, end.
function works.counting()
  local turns = math.floor(steps / 3)
  return function()
    local count = 0
    while count < turns do
      count = count + 1
    end
    assert(count == turns)
  end
end

-- 73 groups of seven siblings, each group below the last node of the one before. A step is a move; the root is one.
function works.walk()
  local groups = 73
  local root = node(nil, 0)
  local parent = root
  for _ = 1, groups do
    local last
    for _ = 1, 7 do last = append(parent, last, 1) end
    parent = last
  end
  local rounds = math.floor(steps / (7 * groups + 1))
  return function()
    local at
    for _ = 1, rounds do
      at = root
      for _ = 1, groups do
        at = at.first
        at = at.right
        at = at.right
        at = at.right
        at = at.right
        at = at.right
        at = at.right
      end
    end
    assert(at == parent)
  end
end

-- A new first child beside 19 others, and its removal: two steps.
function works.churn()
  local root = node(nil, 10)
  local last
  for _ = 1, 19 do last = append(root, last, 3) end
  local turns = math.floor(steps / 2)
  return function()
    for _ = 1, turns do
      local new = node(root, 7)
      new.right = root.first
      root.first = new
      root.children = root.children + 1
      root.first = root.first.right
      root.children = root.children - 1
    end
    assert(root.children == 19)
  end
end

local run = works[work]()
local times = {}
for repetition = 1, repetitions do
  local start = os.clock()
  run()
  times[repetition] = (os.clock() - start) * 1e9 / steps
end
table.sort(times)
print(string.format('%.2f', times[math.floor((repetitions + 1) / 2)]))
