#!/usr/bin/env tarantool
-- tarantool.lua ENGINE MOMENTS TRANSACTIONS KEYS SEED FOLDER LOG: random transactions of fibers that run at once in this process, and their log.
-- ENGINE is vinyl or memtx; MOMENTS is all or none; FOLDER is empty. A transaction of memtx yields nowhere but at its commit.
local engine, moments, transactions, keys, seed, folder, out = unpack(arg)
local fiber = require('fiber')
local log, now, left = io.open(out, 'w'), 0, tonumber(transactions)
math.randomseed(seed)
box.cfg{log_level = 1, work_dir = folder, memtx_memory = 2 ^ 26}
local stock = box.schema.space.create('stock', {engine = engine})
stock:create_index('primary', {parts = {1, 'unsigned'}})
for key = 1, keys do
    stock:replace{key, 0}
end

-- all fibers have one thread: a count is a clock
local function moment()
    now = now + 1
    return moments == 'all' and ' ' .. now or ''
end

local function client(number)
    local lines, wid = {'session ' .. number}, number

    local function transaction()
        box.begin()
        for _ = 1, math.random(5) do
            local key, kind = math.random(keys), math.random(10)
            if engine == 'vinyl' then
                fiber.sleep(math.random() / 3000)
            end
            if kind > 1 then
                table.insert(lines, 'r k' .. key .. ' ' .. stock:get(key)[2])
            end
            if kind < 6 then
                wid = wid + 1000
                table.insert(lines, 'w k' .. key .. ' ' .. wid)
                stock:replace{key, wid}
            end
        end
        box.commit()
    end

    while left > 0 do
        left = left - 1
        table.insert(lines, 'begin' .. moment())
        local is_done, fault = pcall(transaction)
        if is_done then
            table.insert(lines, 'commit' .. moment())
        elseif fault.code == box.error.TRANSACTION_CONFLICT then
            box.rollback()
            table.insert(lines, 'abort')
        else
            error(fault)
        end
        fiber.sleep(math.random() / 3000)
    end
    log:write(table.concat(lines, '\n'), '\n')
end

log:write('log 3\n')
local fibers = {}
for number = 1, 8 do
    fibers[number] = fiber.new(client, number)
    fibers[number]:set_joinable(true)
end
for _, it in ipairs(fibers) do
    local is_done, fault = it:join()
    if not is_done then
        print(fault)
        os.exit(1)
    end
end
log:close()
os.exit(0)
