% The jobs of the benchmark by clingo in one process, on a program made by to_clingo.
%
%   clingo -V0 -c job=all  job.lp PROGRAM      all resolutions, at most 10,000
%   clingo -V0 -c job=one  job.lp PROGRAM      one resolution
%   clingo -V0 -c job=judge job.lp PROGRAM PAIR  the verdict on a pair that PAIR gives by facts given/1
%
% The line "resolutions" stands before the resolutions. The time spent on grounding and on solving goes to the standard
% error. Domination is settled by one question for each exception that outranks another: is there a view with it?
% Minimal sets of exceptions are found by clingo's domain heuristic (taken atoms first, and false), which is its own way
% to models that are minimal in some atoms; then each minimal set's answer sets are listed.

#defined exception/1. #defined outranks/2. #defined given/1. #defined taken/1.
#heuristic taken(K) : exception(K). [1, false]

% For judge: a view with some exception of the given pair left out.
#external smaller.
:- smaller, taken(K) : given(taken(K)).

#script (lua)
local LIMIT = 10000
local solving = 0

-- The atom that exception k is taken, made once.
local atoms = {}
local function taken(k)
    atoms[k] = atoms[k] or clingo.Function("taken", {clingo.Number(k)})
    return atoms[k]
end

-- The numbers k for which a fact name(k) or the like stands in the program.
local function facts(prg, name, arity)
    local found = {}
    for atom in prg.symbolic_atoms:iter() do
        if atom.symbol.name == name and #atom.symbol.arguments == arity then found[#found + 1] = atom.symbol.arguments end
    end
    return found
end

-- Solves under assumptions and answers how many models there were; each is handed to the function, which may answer
-- false to stop.
local function solve(prg, models, mode, assumptions, use)
    prg.configuration.solve.models = models
    prg.configuration.solve.enum_mode = mode
    local count = 0
    local begun = os.clock()
    prg:solve{assumptions = assumptions, on_model = function(model)
        count = count + 1
        if use then return use(model) end
    end}
    solving = solving + os.clock() - begun
    return count
end

-- The assumptions that these exceptions are not taken.
local function without(numbers)
    local list = {}
    for _, k in ipairs(numbers) do list[#list + 1] = {taken(k), false} end
    return list
end

-- The exceptions that some taken exception of some view outranks: they can be in no resolution.
local function outranked(prg)
    local below, out = {}, {}
    for _, two in ipairs(facts(prg, "outranks", 2)) do
        local a, b = two[1].number, two[2].number
        below[a] = below[a] or {}
        table.insert(below[a], b)
    end
    for a, list in pairs(below) do
        if solve(prg, 1, "auto", {{taken(a), true}}) > 0 then
            for _, b in ipairs(list) do out[#out + 1] = b end
        end
    end
    return out
end

-- The set of exceptions of a model, as assumptions that fix it.
local function fixed(model, exceptions)
    local list = {}
    for _, k in ipairs(exceptions) do
        local atom = taken(k)
        list[#list + 1] = {atom, model:contains(atom)}
    end
    return list
end

-- A set that fixed made, as a word of digits.
local function name_of(set)
    local digits = {}
    for place, one in ipairs(set) do digits[place] = one[2] and "1" or "0" end
    return table.concat(digits)
end

local function numbers_of(prg)
    local numbers = {}
    for _, one in ipairs(facts(prg, "exception", 1)) do numbers[#numbers + 1] = one[1].number end
    return numbers
end

-- All resolutions, or one.
local function list(prg, limit)
    local exceptions = numbers_of(prg)
    print("resolutions")
    if solve(prg, limit, "auto", without(exceptions)) > 0 or #exceptions == 0 then return end
    local barred = without(outranked(prg))
    if limit == 1 then
        print("resolutions")
        solve(prg, 1, "auto", barred)
        return
    end
    local sets, seen = {}, {}
    -- Where all its exceptions are forced, a set would come again with every answer set.
    solve(prg, 0, "domRec", barred, function(model)
        local set = fixed(model, exceptions)
        local name = name_of(set)
        if seen[name] then return false end
        seen[name] = true
        sets[#sets + 1] = set
    end)
    print("resolutions")
    local left = limit
    for _, set in ipairs(sets) do
        if left > 0 then left = left - solve(prg, left, "auto", set) end
    end
end

-- The verdict on the given view: 4 if it is dominated, 5 if there is a smaller one, else 0; 1 if it is no view.
local function judge(prg)
    local exceptions = numbers_of(prg)
    local given, pair, smaller = {}, {}, {}
    for _, one in ipairs(facts(prg, "given", 1)) do given[tostring(one[1])] = true end
    for atom in prg.symbolic_atoms:iter() do
        local name = atom.symbol.name
        if name == "s" or name == "taken" then pair[#pair + 1] = {atom.symbol, given[tostring(atom.symbol)] or false} end
    end
    if solve(prg, 1, "auto", pair) == 0 then return 1 end
    for _, b in ipairs(outranked(prg)) do
        if given[tostring(taken(b))] then return 4 end
    end
    for _, k in ipairs(exceptions) do
        if not given[tostring(taken(k))] then smaller[#smaller + 1] = {taken(k), false} end
    end
    prg:assign_external(clingo.Function("smaller", {}), true)
    if solve(prg, 1, "auto", smaller) > 0 then return 5 end
    return 0
end

function main(prg)
    local begun = os.clock()
    prg:ground({{"base", {}}})
    local grounding = os.clock() - begun
    local job = tostring(prg:get_const("job"))
    if job == "judge" then
        print("verdict " .. judge(prg))
    else
        list(prg, job == "one" and 1 or LIMIT)
    end
    io.stderr:write(string.format("grounding %.6f solving %.6f\n", grounding, solving))
end
#end.
