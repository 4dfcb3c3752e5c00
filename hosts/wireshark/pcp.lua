-- pcp.lua - a Wireshark dissector for the messages of a PCP software upgrade
--
-- It names every field of the twelve messages, computes the check itself, and tells the number with which an end refuses a
-- message before it looks at its phase: 3 to 8, or 0. Put it into Wireshark's folder of personal plugins (Help, About,
-- Folders), or:
--
--     scripts/pcapng CAPTURE >file.pcapng
--     wireshark -X lua_script:hosts/wireshark/pcp.lua file.pcapng
--
-- scripts/pcapng writes the link types USER0, messages, and USER1, bytes of a damaged capture that are no record. Live
-- traffic over UDP: choose PCP_UPGRADE by Decode As; a packet from the gateway's port goes toward the device.
--
-- A filter is pcp_upgrade.code == 21, or pcp_upgrade.number != 0. The protocol is not named pcp alone: that is the name of
-- Wireshark's dissector for Performance Co-Pilot.

local pcp = Proto("pcp_upgrade", "PCP software upgrade")
local damage = Proto("pcp_damage", "Bytes of a PCP capture that are no record")

local TO_DEVICE, FROM_DEVICE = 1, 2
-- Bytes before the data.
local HEADER = 8
local QUERY, ANNOUNCE, FRAGMENT, DOWNLOAD_RESULT, EXECUTE, UPGRADE_RESULT = 19, 20, 21, 22, 23, 24

local names = {
    [QUERY] = "query",
    [ANNOUNCE] = "announce",
    [FRAGMENT] = "fragment",
    [DOWNLOAD_RESULT] = "download result",
    [EXECUTE] = "execute",
    [UPGRADE_RESULT] = "upgrade result",
}

-- What a result says, in any message that may carry it.
local results = {
    [0x00] = "yes",
    [0x01] = "busy",
    [0x02] = "weak signal",
    [0x03] = "this version runs",
    [0x04] = "low power",
    [0x05] = "no space",
    [0x06] = "timed out",
    [0x07] = "download failed",
    [0x08] = "package not supported",
    [0x09] = "no memory",
    [0x0A] = "installation failed",
    [0x7F] = "internal error",
    [0x80] = "no such upgrade",
    [0x81] = "no such fragment",
}

-- The numbers' reasons, as include/pcp.h has them.
local reasons = {
    [0] = "handled",
    [3] = "not the start of a PCP message",
    [4] = "unknown protocol version",
    [5] = "unknown message code",
    [6] = "wrong check, or cut short before the data",
    [7] = "wrong data length",
    [8] = "the data is not what this code carries toward this end",
}

local field = {
    direction = ProtoField.uint8("pcp_upgrade.direction", "Direction", base.DEC,
        { [TO_DEVICE] = "toward the device", [FROM_DEVICE] = "from the device" }),
    number = ProtoField.uint8("pcp_upgrade.number", "Number", base.DEC, reasons),
    start = ProtoField.uint16("pcp_upgrade.start", "Start", base.HEX),
    reserved = ProtoField.uint8("pcp_upgrade.reserved", "Reserved bits", base.HEX, nil, 0xF0),
    version = ProtoField.uint8("pcp_upgrade.version", "Protocol version", base.DEC, nil, 0x0F),
    code = ProtoField.uint8("pcp_upgrade.code", "Code", base.DEC, names),
    check = ProtoField.uint16("pcp_upgrade.check", "Check", base.HEX),
    computed = ProtoField.uint16("pcp_upgrade.check.computed", "Check computed", base.HEX),
    length = ProtoField.uint16("pcp_upgrade.length", "Data length", base.DEC),
    result = ProtoField.uint8("pcp_upgrade.result", "Result", base.HEX, results),
    software = ProtoField.string("pcp_upgrade.software", "Software version"),
    size = ProtoField.uint16("pcp_upgrade.size", "Fragment size", base.DEC),
    total = ProtoField.uint16("pcp_upgrade.total", "Number of fragments", base.DEC),
    package_code = ProtoField.uint16("pcp_upgrade.package_code", "Check code of the package", base.HEX),
    index = ProtoField.uint16("pcp_upgrade.index", "Index", base.DEC),
    fragment = ProtoField.bytes("pcp_upgrade.fragment", "Fragment"),
    other = ProtoField.bytes("pcp_upgrade.other", "Other data"),
}
for _, one in pairs(field) do
    table.insert(pcp.fields, one)
end
local damaged_bytes = ProtoField.bytes("pcp_damage.bytes", "Bytes")
damage.fields = { damaged_bytes }

-- A warning for each number, at the field that it is about.
local function warning(name, number, group)
    return ProtoExpert.new("pcp_upgrade." .. name, number .. ": " .. reasons[number], group, expert.severity.ERROR)
end
local warnings = {
    [3] = warning("bad_start", 3, expert.group.MALFORMED),
    [4] = warning("bad_version", 4, expert.group.PROTOCOL),
    [5] = warning("bad_code", 5, expert.group.PROTOCOL),
    [6] = warning("bad_check", 6, expert.group.CHECKSUM),
    [7] = warning("bad_length", 7, expert.group.MALFORMED),
    [8] = warning("bad_data", 8, expert.group.PROTOCOL),
}
pcp.experts = { warnings[3], warnings[4], warnings[5], warnings[6], warnings[7], warnings[8] }

pcp.prefs.gateway_port =
    Pref.uint("Gateway's UDP port", 5683, "Over UDP, a packet from this port goes toward the device")

-- Exclusive or of numbers below 65,536, by what this version of Lua has.
local xor = bit and bit.bxor or bit32 and bit32.bxor or load("return function(a, b) return a ~ b end")()

-- The table of the check: entry i is i times 256, doubled eight times; a carry is dropped, and 1021 applied.
local check_table = {}
for i = 0, 255 do
    local entry = i * 256
    for _ = 1, 8 do
        entry = entry * 2
        if entry >= 65536 then
            entry = xor(entry - 65536, 0x1021)
        end
    end
    check_table[i] = entry
end

-- The check of a message's bytes, with those of the check field (the fifth and the sixth) taken as 00.
local function check_of(bytes)
    local register = 0
    for place = 1, bytes:len() do
        local byte = (place == 5 or place == 6) and 0 or bytes:byte(place)
        register = xor(math.floor(register / 256), check_table[xor(register % 256, byte)])
    end
    return register
end

-- A version: 1 to 16 letters, digits, underscores, hyphens and dots, filled up with 00.
local function is_version(text)
    return text:match("^[A-Za-z0-9_.-]+%z*$") ~= nil
end

-- Its text, without what fills it up.
local function text_of(version)
    return (version:gsub("%z+$", ""))
end

local function is_one_of(result, allowed)
    for _, one in ipairs(allowed) do
        if result == one then
            return true
        end
    end
    return false
end

-- For messages that are a result alone: which are allowed.
local function one_of(allowed)
    return function(values)
        return is_one_of(values.result, allowed)
    end
end

local function any()
    return true
end

local result, software, index = { "result", 1 }, { "software", 16 }, { "index", 2 }

-- A row for each of the twelve messages: the least and the most bytes of its data, the fields in them, each with its length
-- (the last may be all that is left), and whether their values are allowed.
local rows = {
    [TO_DEVICE] = {
        [QUERY] = { least = 0, most = 0, fields = {}, fits = any },
        [ANNOUNCE] = {
            least = 22,
            most = 22,
            fields = { software, { "size", 2 }, { "total", 2 }, { "package_code", 2 } },
            fits = function(values)
                return is_version(values.software) and values.size >= 32 and values.size <= 1024 and values.total >= 1
            end,
        },
        [FRAGMENT] = {
            least = 3,
            most = 65535,
            fields = { result, index, { "fragment" } },
            fits = function(values)
                local length = values.fragment:len()
                if values.result == 0x00 then
                    return length >= 1 and length <= 1024
                end
                return is_one_of(values.result, { 0x80, 0x81 }) and length == 0
            end,
        },
        [DOWNLOAD_RESULT] = { least = 1, most = 1, fields = { result }, fits = one_of({ 0x00, 0x80 }) },
        [EXECUTE] = { least = 0, most = 0, fields = {}, fits = any },
        [UPGRADE_RESULT] = { least = 1, most = 1, fields = { result }, fits = one_of({ 0x00, 0x80 }) },
    },
    [FROM_DEVICE] = {
        [QUERY] = {
            least = 17,
            most = 17,
            fields = { result, software },
            fits = function(values)
                return values.result == 0x00 and is_version(values.software)
            end,
        },
        [ANNOUNCE] = {
            least = 1,
            most = 1,
            fields = { result },
            fits = one_of({ 0x00, 0x01, 0x02, 0x03, 0x04, 0x05, 0x09, 0x7F }),
        },
        [FRAGMENT] = {
            least = 18,
            most = 18,
            fields = { software, index },
            fits = function(values)
                return is_version(values.software)
            end,
        },
        [DOWNLOAD_RESULT] = { least = 1, most = 1, fields = { result }, fits = one_of({ 0x00, 0x05, 0x06, 0x07, 0x08 }) },
        [EXECUTE] = { least = 1, most = 1, fields = { result }, fits = one_of({ 0x00, 0x01, 0x04, 0x05, 0x09 }) },
        [UPGRADE_RESULT] = {
            least = 17,
            most = 17,
            fields = { result, software },
            fits = function(values)
                return is_one_of(values.result, { 0x00, 0x01, 0x04, 0x05, 0x09, 0x0A, 0x7F })
                    and is_version(values.software)
            end,
        },
    },
}

-- Over UDP the port tells which way a packet goes; otherwise its flag does, inbound for toward the device.
local function direction_of(pinfo)
    local toward = pinfo.p2p_dir == 1
    if pinfo.src_port ~= 0 or pinfo.dst_port ~= 0 then
        toward = pinfo.src_port == pcp.prefs.gateway_port
    end
    return toward and TO_DEVICE or FROM_DEVICE
end

-- The number of the first of the tests 3 to 7 that a message fails, or 0. A field that is not all there fails.
local function recognise(bytes)
    local length = bytes:len()
    if bytes:sub(1, 2) ~= "\255\254" then
        return 3
    elseif length < 3 or bytes:byte(3) % 16 ~= 1 then
        return 4
    elseif length < 4 or not names[bytes:byte(4)] then
        return 5
    elseif length < HEADER or bytes:byte(5) * 256 + bytes:byte(6) ~= check_of(bytes) then
        return 6
    elseif bytes:byte(7) * 256 + bytes:byte(8) ~= length - HEADER then
        return 7
    end
    return 0
end

-- The header's fields: name, place, length, and the test that looks at it.
local header = {
    { "start", 0, 2, 3 },
    { "reserved", 2, 1 },
    { "version", 2, 1, 4 },
    { "code", 3, 1, 5 },
    { "check", 4, 2, 6 },
    { "length", 6, 2, 7 },
}

-- Adds those that are there, and the warning at the field that is wrong, or at the last one before it.
local function add_header(tree, buffer, bytes, number)
    local item = tree
    for _, part in ipairs(header) do
        local name, place, length, test = part[1], part[2], part[3], part[4]
        if place + length <= buffer:len() then
            item = tree:add(field[name], buffer(place, length))
        end
        if name == "check" and buffer:len() >= HEADER then
            tree:add(field.computed, buffer(place, length), check_of(bytes)):set_generated()
        end
        if test == number then
            item:add_proto_expert_info(warnings[number])
        end
    end
end

-- The fields whose values are bytes; the others' are numbers.
local is_text = { software = true, fragment = true }

-- Adds the fields of the data, and gives their values; nothing where the message has no such data.
local function add_data(tree, buffer, row)
    local length = buffer:len() - HEADER
    if not row or length < row.least or length > row.most then
        if length > 0 then
            tree:add(field.other, buffer(HEADER))
        end
        return nil
    end
    local values, place = {}, HEADER
    for _, part in ipairs(row.fields) do
        local name, size = part[1], part[2] or buffer:len() - place
        values[name] = ""
        if size > 0 then
            local range = buffer(place, size)
            values[name] = is_text[name] and range:raw() or range:uint()
            tree:add(field[name], range)
        end
        place = place + size
    end
    return values
end

-- A message in a line: its name and its most telling fields.
local function told(code, direction, values)
    local text = code .. " " .. names[code]
    local outcome = values.result and string.format("%02X %s", values.result, results[values.result])
    if values.total then
        local code_text = values.package_code == 0 and "no code" or string.format("code %04X", values.package_code)
        return string.format("%s %s, %d fragment%s of %d bytes, %s", text, text_of(values.software), values.total,
            values.total == 1 and "" or "s", values.size, code_text)
    elseif values.fragment then
        local what = values.result == 0x00 and values.fragment:len() .. " bytes" or outcome
        return string.format("%s %d, %s", text, values.index, what)
    elseif values.index then
        return string.format("%s %d of %s, request", text, values.index, text_of(values.software))
    elseif values.software then
        return string.format("%s, %s, %s runs", text, outcome, text_of(values.software))
    elseif outcome then
        local is_answer = direction == TO_DEVICE or code ~= DOWNLOAD_RESULT
        return text .. (is_answer and " answer, " or ", ") .. outcome
    end
    return text
end

function pcp.dissector(buffer, pinfo, root)
    local direction = direction_of(pinfo)
    local bytes = buffer:len() > 0 and buffer():raw() or ""
    local tree = buffer:len() > 0 and root:add(pcp, buffer()) or root:add(pcp)
    local number = recognise(bytes)

    pinfo.cols.protocol = "PCP"
    if pinfo.src_port == 0 then
        pinfo.cols.src = direction == TO_DEVICE and "gateway" or "device"
        pinfo.cols.dst = direction == TO_DEVICE and "device" or "gateway"
    end
    tree:add(field.direction, direction):set_generated()
    add_header(tree, buffer, bytes, number)
    if buffer:len() >= HEADER then
        local code = bytes:byte(4)
        local row = rows[direction][code]
        local values = add_data(tree, buffer, row)
        if number == 0 and not (values and row.fits(values)) then
            number = 8
            tree:add_proto_expert_info(warnings[number])
        end
        pinfo.cols.info = number == 0 and told(code, direction, values) or ""
    end
    if number ~= 0 then
        pinfo.cols.info = number .. ", " .. reasons[number]
    end
    tree:add(field.number, number):set_generated()
    return buffer:len()
end

function damage.dissector(buffer, pinfo, root)
    root:add(damage, buffer()):add(damaged_bytes, buffer())
    pinfo.cols.protocol = "PCP damage"
    pinfo.cols.info = buffer:reported_len() .. " bytes of the capture that are no record"
    return buffer:len()
end

local by_link_type = DissectorTable.get("wtap_encap")
by_link_type:add(wtap.USER0, pcp)
by_link_type:add(wtap.USER1, damage)
DissectorTable.get("udp.port"):add_for_decode_as(pcp)
