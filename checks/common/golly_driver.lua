-- Runs in Golly's window for checks/golly_scripts.py: calls the functions of golly/shared.lua without a question, and
-- writes what it finds to the folder that FOLDER names. Golly ends with it.

local g = golly()

local FOLDER = os.getenv("FOLDER") .. "/"
local PENTOMINO = { 6, 7, 7, 7, 5, 8, 6, 8, 6, 9 }
local findings = io.open(FOLDER .. "findings", "w")

local function find(...)
    local words = { ... }
    for place, word in ipairs(words) do words[place] = tostring(word):gsub("%s+", " ") end
    findings:write(table.concat(words, "\t"), "\n")
    findings:flush()
end

local function load_shared(checkout)
    return dofile(FOLDER .. checkout .. "/golly/shared.lua")
end

-- All of the open pattern that a run has to leave alone, but the path of its file.
local function state()
    local is_known, box = pcall(g.getrect)
    local cells = is_known and table.concat(g.getcells(box), " ") or ""
    local layers = g.numlayers() .. " " .. g.getlayer()
    return table.concat({ layers, g.getname(), g.getalgo(), g.getrule(), g.getgen(), g.getpop(), cells }, "\n")
end

-- Whether the pattern that a script opened is there again after Golly has run it on and reset it.
local function can_be_reset()
    local before = state()
    g.run(3)
    g.reset()
    return state() == before
end

-- Saves what a script opened, and goes back to the layer before it. Returns the new layer's name.
local function take_new_layer(name)
    local title = can_be_reset() and g.getname() or "Reset brings another pattern"
    g.save(FOLDER .. name .. ".ours.mc", "mc")
    g.dellayer()
    return title
end

-- Runs a pattern on by Golly's own HashLife, in the layer that a script left alone. Golly runs no empty pattern.
local function run_by_golly(name, generations)
    g.setalgo("HashLife")
    if g.empty() then g.setgen("+" .. generations) else g.run(generations) end
    g.save(FOLDER .. name .. ".theirs.mc", "mc")
end

local function try(name, generations, slots, checkout)
    local before, path = state(), g.getpath()
    local shared = load_shared(checkout)
    local is_done, words = pcall(shared.run_generations, generations, slots ~= "-" and slots or nil)
    local title = is_done and take_new_layer(name) or ""
    find(name, is_done, words, state() == before, g.getpath() == path, title)
    if is_done then run_by_golly(name, tonumber(generations)) end
end

local function try_file(line)
    local name, algorithm, generations, slots, checkout, file = line:match("^(%S+) (%S+) (%d+) (%S+) (%S+) (%S+)$")
    g.open(FOLDER .. file)
    if algorithm ~= "-" then g.setalgo(algorithm) end
    try(name, generations, slots, checkout)
end

local function draw(name, checkout)
    local before, path = state(), g.getpath()
    local is_done, words = pcall(load_shared(checkout).draw)
    find(name, is_done, words, state() == before, g.getpath() == path, "")
end

local function try_pictures()
    g.open(FOLDER .. "pictured.rle")
    draw("drawn", "beside")
    draw("drawn-again", "beside")
    g.select({ 4, 6, 3, 4 })
    draw("drawn-selection", "beside")
    draw("drawn-without-program", "on-path")
    g.new("unsaved")
    g.putcells(PENTOMINO)
    draw("drawn-unsaved", "beside")
    g.run(1)
    draw("drawn-later", "beside")
end

local function find_period(name, most, checkout)
    local before, path = state(), g.getpath()
    local is_done, words = pcall(load_shared(checkout).find_period, most)
    find(name, is_done, words, state() == before, g.getpath() == path, "")
end

local function try_periods()
    g.open(FOLDER .. "glider.rle")
    find_period("period", "10000", "beside")
    find_period("too-few-generations", "3", "beside")
    find_period("period-without-program", "10000", "on-path")
    g.new("unsaved")
    g.putcells(PENTOMINO)
    find_period("no-period", "100", "beside")
    g.new("empty")
    find_period("period-of-nothing", "100", "beside")
end

local function try_full_layers()
    for _ = 2, g.maxlayers() do g.addlayer() end
    try("full-layers", "1", "-", "beside")
    for _ = 2, g.maxlayers() do g.dellayer() end
end

-- Golly takes these cells for unsaved, as those that a user draws. It would ask about them before it opens a file.
g.putcells(PENTOMINO)
try("by-hand", "1103", "-", "beside")
g.save(FOLDER .. "saved.rle", "rle")
for line in io.lines(FOLDER .. "cases") do try_file(line) end
try_full_layers()
try_pictures()
try_periods()
g.doevent("key q cmd")
