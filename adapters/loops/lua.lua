-- Evaluates lines for prompted.py: one in double quotes is a statement, with \n for its line ends, one after ? a word whose names are printed,
-- another one the halves of a marker. They come by 3. Lua turns SIGINT into an error in what it runs, once for each of its options -e: so this
-- returns at an interrupt, and the next option goes on.
local commands, own, fault = assert(io.open("/dev/fd/3")), io.stdout, os.getenv("TMHOST_ERROR")
local compile, exit, print, pcall, tostring, type, select = loadstring or load, os.exit, print, pcall, tostring, type, select
local find, gmatch, gsub, match, sub = string.find, string.gmatch, string.gsub, string.match, string.sub
local KEYWORDS = "and break do else elseif end false for function goto if in local nil not or repeat return then true until while"
own:setvbuf("no")
arg = nil

local function plain(wrong)
    if type(wrong) == "string" or type(wrong) == "number" then return tostring(wrong) end
    local meta = getmetatable(wrong)
    local is_text, text = pcall(tostring, wrong)
    if type(meta) == "table" and meta.__tostring and is_text then return text end
    return "(error object is a " .. type(wrong) .. " value)"
end

local function show(...)
    if select("#", ...) > 0 then print(...) end
end

-- A text as an expression; else its first lines as statements and the last ones as an expression, where these can't go on from the others; else
-- as statements.
local function compiled(text)
    local line = compile("return " .. text, "=line")
    for at = line and 0 or #text, 1, -1 do
        if sub(text, at, at) == "\n" then
            local front, last = sub(text, 1, at), sub(text, at + 1)
            if find(last, "^%s*[%w_#]") and compile(front) and compile("return " .. last) then
                line = compile(front .. "return " .. last, "=line")
                break
            end
        end
    end
    if line then return line end
    return compile(text, "=line")
end

-- Whether the line came to its end without an interrupt.
local function answer(text)
    local line, wrong = compiled(text)
    local is_done = false
    if line then is_done, wrong = pcall(function() show(line()) end) end
    if is_done then return true end
    local text = gsub(plain(wrong), "^[^\n]*/lua%.lua:%d+: ", "")
    own:write(fault, text, "\n")
    return not find(text, "interrupted!$")
end

-- The names that stand in tables as they are: nothing of the user's runs.
local function names(word)
    local path, rest = match(word, "^(.-)([%w_]*)$")
    local place = _G
    for one in gmatch(path, "[^.]+") do place = type(place) == "table" and rawget(place, one) end
    for name in next, type(place) == "table" and place or {} do
        if type(name) == "string" and find(name, "^[%a_][%w_]*$") and sub(name, 1, #rest) == rest then own:write(path, name, "\n") end
    end
    for name in gmatch(path == "" and KEYWORDS or "", "%a+") do
        if sub(name, 1, #rest) == rest then own:write(name, "\n") end
    end
end

local function lines()
    for line in commands:lines() do
        local kind = sub(line, 1, 1)
        if kind == '"' then
            local text = gsub(sub(line, 2, -2), "\\(.)", function(one) return one == "n" and "\n" or one end)
            if not answer(text) then return end
        elseif kind == "?" then
            names(sub(line, 2))
        else
            own:write((gsub(line, " ", "", 1)), "\n")
        end
        own:flush()
    end
    exit()
end

debug.getregistry().tmhost = function() pcall(lines) end
