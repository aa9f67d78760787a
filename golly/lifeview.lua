-- Draws what is selected, else the whole pattern, by lifeview as a PNG file beside the pattern's.

local g = golly()
local shared = require "shared"

local is_done, words = pcall(shared.draw)
if not is_done then g.exit(words) end
g.show(words)
