-- Runs the pattern that is open by lifebatch, and opens what comes out in a new layer.

local g = golly()
local shared = require "shared"

local SETTINGS = g.getdir("data") .. "lifebatch.ini"
local PROMPT = "How many generations?\n" ..
    "A second number limits the slots of the node tables (4194304)."

local function remembered()
    local file = io.open(SETTINGS, "r")
    if not file then return "" end
    local answer = file:read("l") or ""
    file:close()
    return answer
end

local function remember(answer)
    local file = io.open(SETTINGS, "w")
    if not file then return g.warn("The answer could not be kept in\n" .. SETTINGS) end
    file:write(answer)
    file:close()
end

local answer = g.getstring(PROMPT, remembered(), "lifebatch")
local count, slots = answer:gsub(",", ""):match("^%s*(%d+)%s*(%d*)%s*$")
if not count then g.exit(("\"%s\" is not a number of generations."):format(answer)) end
remember(answer)
local is_done, words = pcall(shared.run_generations, count, slots ~= "" and slots or nil)
if not is_done then g.exit(words) end
g.show(words)
