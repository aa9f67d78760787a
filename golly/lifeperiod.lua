-- Finds the period of the pattern that is open by lifeperiod, and how far it moves.

local g = golly()
local shared = require "shared"

local MOST = "10000"

local is_done, words = pcall(shared.find_period, MOST)
if not is_done then g.exit(words) end
g.show(words)
