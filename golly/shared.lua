-- What lifebatch.lua, lifeview.lua and lifeperiod.lua share. Each saves the pattern that is open, runs a program of this
-- repository on the file, and says in words how that ended. This file returns a table of three functions, which other
-- scripts may call.
-- Each returns words, or raises words and leaves the pattern as it was.

local g = golly()

-- The folder of this script, from the folder in which Golly runs scripts.
local FOLDER = debug.getinfo(1, "S").source:match("^@(.*/)") or "./"
local MOST_WORKERS = 64
-- Golly copies a pattern to another layer cell by cell: so many at most, all within 10^9 of (0,0).
local MOST_COPIED = 4194304
-- The slots of the node tables for a picture or a period. A small pattern does not take their memory.
local SLOTS = 67108864
local POLL_MILLISECONDS = 20
-- What Golly's functions raise after Escape.
local ESCAPED = "GOLLY: ABORT SCRIPT"

local MEANINGS = {
    BadGen = "the generation is above 2^63",
    BadRule = "this rule is not supported",
    BirthOnZero = "rules with birth on 0 neighbours are not supported",
    FramesNotRead = "a pattern with a timeline is not supported",
    NodesFull = "the tables are too small; lifebatch.lua takes more slots after the generations, as in: 1000 8388608",
    NoMemory = "there is too little memory",
    OutOfRange = "cells lie beyond 2^62",
    ReadFailed = "the file that Golly saved could not be read",
    TooFar = "the run leaves the range of cells or of generations; give fewer generations",
    TooManyCells = "there are too many nodes",
    WindowTooLarge = "the selection is too large, or too far out",
    WriteFailed = "what came out could not be written; is there room on the disk?",
}

local shared = {}

local function raise(words)
    error(words, 0)
end

local function quoted(text)
    return "'" .. text:gsub("'", "'\\''") .. "'"
end

local function contents(path)
    local file = io.open(path, "r")
    if not file then return "" end
    local text = file:read("a")
    file:close()
    return text
end

local function is_there(path)
    local file = io.open(path, "r")
    if file then file:close() end
    return file ~= nil
end

local function output_of(command)
    local pipe = io.popen(command, "r")
    local text = pipe:read("a")
    pipe:close()
    return (text:gsub("%s+$", ""))
end

-- A program in the folder above this script's, else on the PATH.
local function find(name)
    local beside = quoted(FOLDER .. "../" .. name)
    local path = output_of(("command -v %s || command -v %s"):format(beside, name))
    if path == "" then raise(name .. " is neither in the folder above this script's nor on the PATH.") end
    return path
end

-- As many workers as there are cores.
local function workers()
    return math.max(1, math.min(MOST_WORKERS, tonumber(output_of("nproc")) or 1))
end

-- Refuses what no program takes, before anything is saved.
local function judge_pattern()
    local rule, algorithm = g.getrule(), g.getalgo()
    if g.numstates() > 2 then
        raise(("The rule %s has %d states: only two are supported."):format(rule, g.numstates()))
    elseif rule:find(":", 1, true) then
        raise(("The rule %s has a bounded grid: only the unbounded plane is supported."):format(rule))
    elseif algorithm ~= "QuickLife" and algorithm ~= "HashLife" then
        raise(("The rule %s is one of Golly's algorithm %s, which is not supported."):format(rule, algorithm))
    elseif rule:find("^B0") then
        raise("BirthOnZero: " .. MEANINGS.BirthOnZero .. ".")
    elseif g.numlayers() == g.maxlayers() then
        raise(("All %d layers are in use: delete one first."):format(g.maxlayers()))
    end
end

-- Whether Golly can copy the pattern to another layer.
local function is_copyable()
    return pcall(g.getrect) and tonumber(g.getpop()) <= MOST_COPIED
end

-- For its Reset, Golly reads the file that the pattern was last read from or saved to. After an edit it saves the
-- pattern anew when it runs on, so this file may be removed.
local function forget_file()
    local state = g.getcell(0, 0)
    g.setcell(0, 0, 1 - state)
    g.setcell(0, 0, state)
end

local function save_by_hashlife(file, rule)
    if g.getalgo() ~= "HashLife" then g.setalgo("HashLife") end
    if g.getrule() ~= rule then raise(("HashLife does not have the rule %s."):format(rule)) end
    g.save(file, "mc")
end

-- Saves a copy of the pattern, since Golly renames the layer that it saves. Escape waits until the copy is gone.
local function save_copy(file)
    local rule = g.getrule()
    g.check(false)
    g.duplicate()
    local is_saved, words = pcall(save_by_hashlife, file, rule)
    g.dellayer()
    g.check(true)
    if not is_saved then raise(words) end
end

-- Saves a pattern that can't be copied. Golly then takes it for saved.
local function save_in_place(file)
    if g.getalgo() ~= "HashLife" then raise("This pattern is too large for QuickLife: set HashLife first.") end
    local name = g.getname()
    g.save(file, "mc")
    g.setname(name)
    forget_file()
end

-- Says in words how a run ended, which was no success.
local function words_of_failure(name, status, message)
    local refusal = message:match("refused %d+.-: (%w+)")
    if refusal then return ("%s: %s."):format(refusal, MEANINGS[refusal] or "see docs/formats.md") end
    if status > 128 then return ("%s was ended by signal %d."):format(name, status - 128) end
    return message:match("([^\n]+)%s*$") or ("%s ended with status %d."):format(name, status)
end

-- Starts a command in a session of its own, which can be ended as a whole, and returns its number.
local function start(command, folder)
    local files = { quoted(folder .. "/report"), quoted(folder .. "/message"), quoted(folder .. "/status") }
    local line = ("%s </dev/null >%s 2>%s; echo $? >%s"):format(command, table.unpack(files))
    return output_of(("setsid sh -c %s >/dev/null 2>&1 & echo $!"):format(quoted(line)))
end

-- Waits until a program ends, and returns its status. While it is built, its messages say how far that is.
local function await(name, folder)
    local began, shown = os.time(), nil
    while true do
        local status = tonumber(contents(folder .. "/status"))
        if status then return status end
        local message = contents(folder .. "/message"):match("([^\n]+)\n*$") or name .. " runs"
        local line = ("%s: %d s. Escape ends it."):format(message, os.time() - began)
        if line ~= shown then g.show(line) end
        shown = line
        g.sleep(POLL_MILLISECONDS)
    end
end

-- Runs a program, and returns what it reports.
local function run(name, arguments, folder)
    local session = start(quoted(find(name)) .. " " .. arguments, folder)
    local is_ended, status = pcall(await, name, folder)
    if not is_ended then
        os.execute("kill -- -" .. session)
        raise(status)
    end
    if status ~= 0 then raise(words_of_failure(name, status, contents(folder .. "/message"))) end
    return contents(folder .. "/report")
end

-- Calls a task with a folder in which the pattern is saved. The folder is removed in the end.
local function with_saved_pattern(task)
    judge_pattern()
    local folder = output_of("mktemp -d")
    if folder == "" then raise("No temporary folder could be made.") end
    local is_done, answer = pcall(function()
        local save = is_copyable() and save_copy or save_in_place
        save(folder .. "/in.mc")
        return task(folder)
    end)
    os.execute("rm -rf " .. quoted(folder))
    if is_done then return answer end
    if not answer:find(ESCAPED, 1, true) then raise(answer) end
    -- Each of Golly's functions would raise the same again.
    g.continue("")
    raise("The run was ended; the pattern is as it was.")
end

-- Opens a pattern in a new layer, with the name, the view and the cursor of the present one. Escape waits until it is
-- there.
local function open_beside(file)
    local name, cursor, magnification, x, y = g.getname(), g.getcursor(), g.getmag(), g.getpos()
    g.check(false)
    g.addlayer()
    g.open(file)
    g.setname(name)
    g.setcursor(cursor)
    forget_file()
    if g.getoption("autofit") == 0 then
        g.setpos(x, y)
        g.setmag(magnification)
    end
    g.check(true)
end

-- Runs the pattern for so many generations, and opens what comes out in a new layer. Both numbers are texts of digits;
-- the second, the slots of the node tables, may be missing.
function shared.run_generations(count, slots)
    return with_saved_pattern(function(folder)
        local output, layer = folder .. "/out.mc", g.getlayer()
        local limit = slots and "--nodes " .. slots or ""
        local arguments = ("-m %s %s --workers %d -o %s %s"):format(
            count, limit, workers(), quoted(output), quoted(folder .. "/in.mc"))
        local generation, population = run("lifebatch", arguments, folder):match("(%d+): (%d+)\n$")
        if not generation or not is_there(output) then raise("lifebatch has reported or written nothing.") end
        open_beside(output)
        return ("Generation %s: %s cells. Layer %d has the pattern as it was."):format(generation, population, layer)
    end)
end

-- The folder of the pattern's file, if that is none of Golly's own files and the folder can be written to, else Golly's
-- data folder.
local function picture_folder()
    local path, temporary = g.getpath(), g.getdir("temp")
    local folder = path:match("^(.*/)")
    local is_own = is_there(path) and path:sub(1, #temporary) ~= temporary
    if is_own and os.execute("test -w " .. quoted(folder)) then return folder end
    return g.getdir("data")
end

-- The path of a picture that is not there yet.
local function picture_path()
    local name = g.getname():gsub("%.gz$", ""):gsub("%.%w+$", ""):gsub("/", "-")
    local stem = ("%s%s-%s"):format(picture_folder(), name, g.getgen())
    local path, number = stem .. ".png", 1
    while is_there(path) do
        number = number + 1
        path = ("%s-%d.png"):format(stem, number)
    end
    return path
end

-- The option for what is selected, else nothing. Row y of Golly is row y - 1 of a macrocell file for the programs.
local function window_option()
    local is_known, selection = pcall(g.getselrect)
    if not is_known then raise("WindowTooLarge: " .. MEANINGS.WindowTooLarge .. ".") end
    if #selection == 0 then return "" end
    local x, y, width, height = table.unpack(selection)
    return ("--window=%d,%d,%d,%d"):format(x, y - 1, width, height)
end

-- Draws what is selected, else all live cells, as a PNG file, and returns its name and its size.
function shared.draw()
    local picture, window = picture_path(), window_option()
    return with_saved_pattern(function(folder)
        local arguments = ("%s --nodes %d --workers %d -o %s %s"):format(
            window, SLOTS, workers(), quoted(picture), quoted(folder .. "/in.mc"))
        local line = run("lifeview", arguments, folder):match("([^\n]+)\n$")
        if not line or not is_there(picture) then raise("lifeview has reported or written nothing.") end
        return line
    end)
end

-- Finds the period of the pattern, if it is at most so many generations, and returns the line of it. The number is a text
-- of digits.
function shared.find_period(most)
    return with_saved_pattern(function(folder)
        local arguments = ("--most %s --nodes %d --workers %d %s"):format(
            most, SLOTS, workers(), quoted(folder .. "/in.mc"))
        local line = run("lifeperiod", arguments, folder):match("([^\n]+)\n$")
        if not line then raise("lifeperiod has reported nothing.") end
        return line
    end)
end

return shared
