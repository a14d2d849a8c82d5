-- Shows IDS messages of both profiles, their seals, and units in Wireshark (the layouts: docs/FORMATS.md).
--
-- wireshark/README.md says how it is installed and used; wireshark/check compares it with the program idsm.
--
-- A packet holds messages one after the other, or units one after the other. Each message is read once, from its
-- first byte on, and shown before the next is read. What cannot be read is told in the words of `idsm decode` and
-- `idsm unbundle`, as an expert info; no bytes make a Lua error.

local messages = Proto("idsm", "IDS messages")
local units = Proto("idsm_units", "Units of IDS messages")

-- ---- The layout. Lengths are in bytes; the bits of a byte are counted from its highest one, which is 0.

local EVENT_PART = 8
local IN_EVENT_PART = {
    first = { at = 0, bytes = 1 }, -- the version and what parts there are
    place = { at = 1, bytes = 2 }, -- the instance and the sensor
    event = { at = 3, bytes = 2 },
    count = { at = 5, bytes = 2 },
    last = { at = 7, bytes = 1 }, -- reserved, or the version of the context data
}
local TIMESTAMP, HALF_TIMESTAMP = 8, 4
local SHORT_LENGTH, LONG_LENGTH = 1, 4
local SHORT_CONTEXT_MOST = 127
local SIGNATURE_LENGTH = 2
local COUNTER, TAG = 8, 32
local SEAL = COUNTER + TAG
local UNIT_HEAD = 4
local IN_UNIT_HEAD = { messages = { at = 0, bytes = 2 }, length = { at = 2, bytes = 2 } }

local VERSION_BITS, INSTANCE_BITS, SENSOR_BITS = { at = 0, count = 4 }, { at = 0, count = 10 }, { at = 10, count = 6 }
local NANOSECOND_BITS = { at = 2, count = 30 } -- of a timestamp's first half
local UNKNOWN_BIT, SIGNATURE_BIT, TIMESTAMP_BIT, CONTEXT_BIT = 4, 5, 6, 7
local SIGNATURE_FLAG = 4 -- what the signature's bit adds to the first byte
local LONG_FORM_BIT = 0 -- of a context's length; the bits after it are the number

local PROFILE_1, PROFILE_2 = 1, 2

-- ---- What can be filtered for

local field = {
    version = ProtoField.uint8("idsm.version", "Version", base.DEC, nil, 0xf0),
    has_signature = ProtoField.bool("idsm.has_signature", "Signature", 8, nil, 0x04),
    has_timestamp = ProtoField.bool("idsm.has_timestamp", "Timestamp", 8, nil, 0x02),
    has_context = ProtoField.bool("idsm.has_context", "Context data", 8, nil, 0x01),
    instance = ProtoField.uint16("idsm.instance", "Instance", base.DEC, nil, 0xffc0),
    sensor = ProtoField.uint16("idsm.sensor", "Sensor", base.DEC, nil, 0x003f),
    event = ProtoField.uint16("idsm.event", "Event", base.DEC),
    count = ProtoField.uint16("idsm.count", "Count", base.DEC),
    reserved = ProtoField.uint8("idsm.reserved", "Reserved", base.DEC),
    context_version = ProtoField.uint8("idsm.context.version", "Version of the context data", base.DEC),
    timestamp = ProtoField.uint64("idsm.timestamp", "Timestamp", base.HEX),
    source = ProtoField.uint32("idsm.timestamp.source", "Source", base.DEC, nil, 0x80000000),
    stamp_reserved = ProtoField.uint32("idsm.timestamp.reserved", "Reserved", base.DEC, nil, 0x40000000),
    nanoseconds = ProtoField.uint32("idsm.timestamp.nanoseconds", "Nanoseconds", base.DEC, nil, 0x3fffffff),
    seconds = ProtoField.uint32("idsm.timestamp.seconds", "Seconds", base.DEC),
    form = ProtoField.uint8("idsm.context.form", "Form of the length", base.DEC, { [0] = "short", [1] = "long" }, 0x80),
    context_length = ProtoField.uint32("idsm.context.length", "Bytes of the context data", base.DEC),
    context = ProtoField.bytes("idsm.context", "Context data"),
    signature_length = ProtoField.uint16("idsm.signature.length", "Bytes of the signature", base.DEC),
    signature = ProtoField.bytes("idsm.signature", "Signature"),
    counter = ProtoField.uint64("idsm.seal.counter", "Counter", base.DEC),
    tag = ProtoField.bytes("idsm.seal.tag", "Tag"),
    right = ProtoField.bool("idsm.seal.right", "The tag is right"),
    length = ProtoField.uint32("idsm.length", "Bytes of the message", base.DEC),
}
messages.fields = field

local unit_field = {
    messages = ProtoField.uint16("idsm_units.messages", "Messages", base.DEC),
    length = ProtoField.uint16("idsm_units.length", "Bytes of the messages", base.DEC),
}
units.fields = unit_field

local group, severity = expert.group, expert.severity

local told = {
    bad = ProtoExpert.new("idsm.bad", "Bad message", group.MALFORMED, severity.ERROR),
    cut = ProtoExpert.new("idsm.cut", "Cut by the capture", group.UNDECODED, severity.NOTE),
    odd = ProtoExpert.new("idsm.odd", "No manager of this project sends it", group.PROTOCOL, severity.NOTE),
    bad_tag = ProtoExpert.new("idsm.seal.bad_tag", "Bad tag", group.SECURITY, severity.ERROR),
    bad_counter = ProtoExpert.new("idsm.seal.bad_counter", "Bad counter", group.SEQUENCE, severity.WARN),
    bad_key = ProtoExpert.new("idsm.seal.bad_key", "The key of the preferences is none", group.SECURITY, severity.WARN),
}
messages.experts = told

local unit_told = {
    bad = ProtoExpert.new("idsm_units.bad", "Bad unit", group.MALFORMED, severity.ERROR),
    cut = ProtoExpert.new("idsm_units.cut", "Cut by the capture", group.UNDECODED, severity.NOTE),
}
units.experts = unit_told

-- ---- Reading a message

-- The bytes of this part, where the whole begins at `at`.
local function part_at(tvb, at, part)
    return tvb(at + part.at, part.bytes)
end

-- The bytes of a buffer from `at` up to `to`, of which parts are taken off the front.
local Rest = {}
Rest.__index = Rest

function Rest.new(tvb, at, to)
    return setmetatable({ tvb = tvb, at = at, to = to }, Rest)
end

-- The next so many bytes, or nothing where fewer are left.
function Rest:take(count)
    if self.to - self.at < count then return nil end
    local range = self.tvb(self.at, count)
    self.at = self.at + count
    return range
end

-- The next byte, which stays where it is.
function Rest:first()
    return self.at < self.to and self.tvb(self.at, 1) or nil
end

-- Each of these reads one part into the message, where its first byte announces the part, and answers whether the bytes
-- have all of it.

local function read_event(rest, message)
    if not rest:take(EVENT_PART) then return false end
    for name, part in pairs(IN_EVENT_PART) do message[name] = part_at(rest.tvb, message.from, part) end
    return true
end

local function read_timestamp(rest, message)
    if message.first:bitfield(TIMESTAMP_BIT) == 0 then return true end
    message.timestamp = rest:take(TIMESTAMP)
    return message.timestamp ~= nil
end

local function read_context(rest, message)
    if message.first:bitfield(CONTEXT_BIT) == 0 then return true end
    local form = rest:first()
    if not form then return false end
    local is_long = form:bitfield(LONG_FORM_BIT) == 1
    local length = rest:take(is_long and LONG_LENGTH or SHORT_LENGTH)
    if not length then return false end
    local bytes = rest:take(length:bitfield(LONG_FORM_BIT + 1, 8 * length:len() - 1))
    message.context = { form = form, is_long = is_long, length = length, bytes = bytes }
    return bytes ~= nil
end

local function read_signature(rest, message)
    if message.first:bitfield(SIGNATURE_BIT) == 0 then return true end
    message.unsigned = rest.at
    local length = rest:take(SIGNATURE_LENGTH)
    local bytes = length and rest:take(length:uint())
    message.signature = { length = length, bytes = bytes }
    return bytes ~= nil
end

-- The message at the front of the bytes from `from` up to `to`, of which there is one at least; or nothing and the
-- reason, as `idsm decode` words it.
local function read_message(tvb, from, to)
    local first = tvb(from, 1)
    local version = first:bitfield(VERSION_BITS.at, VERSION_BITS.count)
    if version ~= PROFILE_1 and version ~= PROFILE_2 then return nil, "version" end
    if first:bitfield(UNKNOWN_BIT) == 1 then return nil, "part" end
    local rest, message = Rest.new(tvb, from, to), { version = version, from = from }
    local is_whole = read_event(rest, message) and read_timestamp(rest, message)
        and read_context(rest, message) and read_signature(rest, message)
    if not is_whole then return nil, "short" end
    message.to, message.bytes = rest.at, tvb(from, rest.at - from)
    message.instance = message.place:bitfield(INSTANCE_BITS.at, INSTANCE_BITS.count)
    message.sensor = message.place:bitfield(SENSOR_BITS.at, SENSOR_BITS.count)
    return message
end

-- ---- SHA-256 and HMAC, over strings of bytes

-- Operations on words of 32 bits: a library of Lua 5.2, or operators of Lua 5.3, which Lua 5.2 cannot read.
local bits = bit32 or load([[return {
    band = function(a, b) return a & b end,
    bxor = function(a, b, c) return a ~ b ~ (c or 0) end,
    bnot = function(a) return ~a & 0xffffffff end,
    rshift = function(a, n) return a >> n end,
    rrotate = function(a, n) return ((a >> n) | (a << (32 - n))) & 0xffffffff end,
}]])()
local band, bxor, bnot, rshift, rrotate = bits.band, bits.bxor, bits.bnot, bits.rshift, bits.rrotate

local WORDS = 0x100000000 -- how many words there are
local BLOCK, BLOCK_WORDS, STATE_WORDS, ROUNDS = 64, 16, 8, 64
local TEXT_LENGTH = 8 -- the bytes at the end of a padded text that tell how long it was
local MARK = "\128" -- the byte with which padding begins
local INNER_MASK, OUTER_MASK = 0x36, 0x5c

local function primes(count)
    local found, candidate = {}, 2
    while #found < count do
        local is_prime = true
        for _, prime in ipairs(found) do is_prime = is_prime and candidate % prime ~= 0 end
        if is_prime then found[#found + 1] = candidate end
        candidate = candidate + 1
    end
    return found
end

-- The first 32 bits of what is after the point in this root of each of the first so many primes.
local function bits_of_roots(count, exponent)
    local words = {}
    for i, prime in ipairs(primes(count)) do words[i] = math.floor(prime ^ exponent % 1 * WORDS) end
    return words
end

local START, ROUND_WORDS = bits_of_roots(STATE_WORDS, 1 / 2), bits_of_roots(ROUNDS, 1 / 3)

local function padded(text)
    local zeros = (BLOCK - #text - #MARK - TEXT_LENGTH) % BLOCK
    local length = 8 * #text -- in bits
    return text .. MARK .. ("\0"):rep(zeros) .. Struct.pack(">I4I4", math.floor(length / WORDS), length % WORDS)
end

local BLOCK_FORMAT, STATE_FORMAT = ">" .. ("I4"):rep(BLOCK_WORDS), ">" .. ("I4"):rep(STATE_WORDS)

-- The words that the rounds of a block take.
local function schedule(text, at)
    local words = { Struct.unpack(BLOCK_FORMAT, text, at) }
    for i = BLOCK_WORDS + 1, ROUNDS do
        local far, near = words[i - 15], words[i - 2]
        local s0 = bxor(rrotate(far, 7), rrotate(far, 18), rshift(far, 3))
        local s1 = bxor(rrotate(near, 17), rrotate(near, 19), rshift(near, 10))
        words[i] = (words[i - 16] + s0 + words[i - 7] + s1) % WORDS
    end
    return words
end

-- Takes the block at this place of the text into the state. The letters are those of the standard (FIPS 180-4).
local function take_block(state, text, at)
    local words = schedule(text, at)
    local a, b, c, d, e, f, g, h = table.unpack(state)
    for i = 1, ROUNDS do
        local s1 = bxor(rrotate(e, 6), rrotate(e, 11), rrotate(e, 25))
        local choice = bxor(band(e, f), band(bnot(e), g))
        local t1 = h + s1 + choice + ROUND_WORDS[i] + words[i]
        local s0 = bxor(rrotate(a, 2), rrotate(a, 13), rrotate(a, 22))
        local majority = bxor(band(a, b), band(a, c), band(b, c))
        a, b, c, d, e, f, g, h = (t1 + s0 + majority) % WORDS, a, b, c, (d + t1) % WORDS, e, f, g
    end
    for i, word in ipairs({ a, b, c, d, e, f, g, h }) do state[i] = (state[i] + word) % WORDS end
end

local function sha256(text)
    local state = { table.unpack(START) }
    text = padded(text)
    for at = 1, #text, BLOCK do take_block(state, text, at) end
    return Struct.pack(STATE_FORMAT, table.unpack(state))
end

-- The key, filled with zeros to a block, each of its bytes under this mask.
local function masked(key, mask)
    local bytes = { key:byte(1, -1) }
    for i = 1, BLOCK do bytes[i] = string.char(bxor(bytes[i] or 0, mask)) end
    return table.concat(bytes)
end

-- A function that gives the tag of a text under this key.
local function tags_under(key)
    local inner, outer = masked(key, INNER_MASK), masked(key, OUTER_MASK)
    return function(text) return sha256(outer .. sha256(inner .. text)) end
end

-- ---- Seals

local tag_of -- gives the tag of a text under the key of the preferences; nothing where there is none
local has_bad_key = false

local function bytes_of_digits(text)
    return (text:gsub("%x%x", function(digits) return string.char(tonumber(digits, 16)) end))
end

-- Takes the key of the preferences, in hexadecimal.
local function take_key(text)
    has_bad_key = #text % 2 ~= 0 or #text > 2 * BLOCK or text:find("%X") ~= nil
    local has_key = text ~= "" and not has_bad_key
    tag_of = has_key and tags_under(bytes_of_digits(text)) or nil
end

-- What a sealed message was before it was sealed, and then its counter: of this the tag is made.
local function sealed_text(message, counter)
    local before = message.bytes:raw(0, message.unsigned - message.from)
    return string.char(before:byte() - SIGNATURE_FLAG) .. before:sub(2) .. counter:raw()
end

local function show_tag(item, message, counter, tag)
    local tag_item = item:add(field.tag, tag)
    if has_bad_key then tag_item:add_proto_expert_info(told.bad_key) end
    if not tag_of then return end
    local is_right = tag_of(sealed_text(message, counter)) == tag:raw()
    item:add(field.right, tag, is_right):set_generated()
    if not is_right then tag_item:add_proto_expert_info(told.bad_tag, ("bad tag at %d"):format(message.from)) end
end

-- The counters that come next, of each instance and of all, as the packets are read for the first time; and what was
-- found of each seal then, since Wireshark shows packets again in any order.
local next_of_instance, next_of_all, found = {}, nil, {}

function messages.init()
    next_of_instance, next_of_all, found = {}, nil, {}
end

-- A name for the next seal of this packet, the same however often the packet is shown.
local function name_of_seal(pinfo)
    local number = (tonumber(pinfo.private.idsm_seals) or 0) + 1
    pinfo.private.idsm_seals = tostring(number)
    return pinfo.number .. " " .. number
end

-- What is wrong with a counter, or false. It is right where it is the first of its instance, or the next one of its
-- instance, or the next one of all: a manager may have sealed its own messages, or a report those of several.
local function follow(instance, counter)
    local due = next_of_instance[instance]
    local is_right = not due or counter == due or counter == next_of_all
    next_of_instance[instance], next_of_all = counter + 1, counter + 1
    return not is_right and ("%s, where %s was due"):format(counter, due)
end

local function show_counter(item, message, pinfo, range)
    local counter_item = item:add(field.counter, range)
    if not messages.prefs.follow then return end
    local name = name_of_seal(pinfo)
    if found[name] == nil then found[name] = follow(message.instance, range:uint64()) end
    if not found[name] then return end
    counter_item:add_proto_expert_info(told.bad_counter, ("bad counter at %d: %s"):format(message.from, found[name]))
end

-- ---- Showing a message

local function tell_odd(item, is_odd, text)
    if is_odd then item:add_proto_expert_info(told.odd, text) end
end

local function show_event(tree, message)
    for _, it in ipairs({ field.version, field.has_signature, field.has_timestamp, field.has_context }) do
        tree:add(it, message.first)
    end
    tree:add(field.instance, message.place)
    tree:add(field.sensor, message.place)
    tree:add(field.event, message.event)
    tell_odd(tree:add(field.count, message.count), message.count:uint() == 0, "a count of 0")
    if message.version == PROFILE_1 then
        tell_odd(tree:add(field.reserved, message.last), message.last:uint() ~= 0, "a reserved byte that is not 0")
    else
        local is_odd = message.last:uint() ~= 0 and not message.context
        tell_odd(tree:add(field.context_version, message.last), is_odd, "a version of context data without any")
    end
end

local function show_timestamp(tree, stamp)
    local item = tree:add(field.timestamp, stamp)
    local high, low = stamp(0, HALF_TIMESTAMP), stamp(HALF_TIMESTAMP, HALF_TIMESTAMP)
    item:append_text((" (%d s and %d ns)"):format(low:uint(), high:bitfield(NANOSECOND_BITS.at, NANOSECOND_BITS.count)))
    item:add(field.source, high)
    item:add(field.stamp_reserved, high)
    item:add(field.nanoseconds, high)
    item:add(field.seconds, low)
end

local function show_context(tree, context)
    local length = context.bytes:len()
    tree:add(field.form, context.form)
    local length_item = tree:add(field.context_length, context.length, length)
    tell_odd(length_item, context.is_long and length <= SHORT_CONTEXT_MOST, "the long form of a short length")
    tell_odd(length_item, length == 0, "a context of no bytes")
    tree:add(field.context, context.bytes)
end

local function show_signature(tree, message, pinfo)
    local signature = message.signature.bytes
    tree:add(field.signature_length, message.signature.length)
    local item = tree:add(field.signature, signature)
    if signature:len() ~= SEAL then return end
    local counter = signature(0, COUNTER)
    show_counter(item, message, pinfo, counter)
    show_tag(item, message, counter, signature(COUNTER, TAG))
end

-- A message in one line.
local function summary(message)
    local words = "event %d, count %d, sensor %d, instance %d"
    return words:format(message.event:uint(), message.count:uint(), message.sensor, message.instance)
end

local function show_message(tree, message, pinfo)
    local item = tree:add(messages, message.bytes)
    item:set_text("IDS message: " .. summary(message))
    show_event(item, message)
    if message.timestamp then show_timestamp(item, message.timestamp) end
    if message.context then show_context(item, message.context) end
    if message.signature then show_signature(item, message, pinfo) end
    item:add(field.length, message.bytes, message.bytes:len()):set_generated()
end

-- Reads and shows the messages from `from` up to `to`. Answers how many they are, the first in words, and where they
-- end; and the reason why none can be read there, where bytes are left.
local function show_messages(tree, tvb, from, to, pinfo)
    local shown = { count = 0, to = from }
    while shown.to < to do
        local message, reason = read_message(tvb, shown.to, to)
        if not message then
            shown.reason = reason
            break
        end
        show_message(tree, message, pinfo)
        shown.count, shown.to = shown.count + 1, message.to
        shown.first = shown.first or summary(message)
    end
    return shown
end

-- Shows bytes that are no message, with what is told of them.
local function show_no_message(tree, bytes, kind, text)
    local item = tree:add(messages, bytes)
    item:set_text("IDS message: " .. text)
    item:add_proto_expert_info(kind, text)
    return text
end

local function show_bad_message(tree, bytes, at, reason)
    return show_no_message(tree, bytes, told.bad, ("bad message at %d: %s"):format(at, reason))
end

-- Shows what stands after the messages of a packet, and answers what is told of it. It is no fault of a message that
-- bytes are missing which the capture did not keep.
local function show_rest(tree, tvb, shown)
    local bytes = tvb(shown.to, tvb:captured_len() - shown.to)
    local is_short = not shown.reason or shown.reason == "short"
    if is_short and tvb:captured_len() < tvb:reported_len() then
        return show_no_message(tree, bytes, told.cut, ("message at %d cut by the capture"):format(shown.to))
    end
    return shown.reason and show_bad_message(tree, bytes, shown.to, shown.reason)
end

-- What the packet list says of so many messages, of which the first is told, and of what is bad.
local function words_of(count, first, fault)
    local words = { first }
    if count > 1 then words[#words + 1] = ("and %d more"):format(count - 1) end
    if fault then words[#words + 1] = fault end
    return table.concat(words, ", ")
end

function messages.dissector(tvb, pinfo, tree)
    local shown = show_messages(tree, tvb, 0, tvb:captured_len(), pinfo)
    local fault = show_rest(tree, tvb, shown)
    pinfo.cols.protocol = "IDS"
    pinfo.cols.info = words_of(shown.count, shown.first, fault)
    return tvb:captured_len()
end

-- ---- Units

-- How many bytes the unit at this place has, by its head, or nothing where its head is not all there.
local function unit_bytes(tvb, at)
    if tvb:captured_len() - at < UNIT_HEAD then return nil end
    return UNIT_HEAD + part_at(tvb, at, IN_UNIT_HEAD.length):uint()
end

-- Why the bytes are no unit, though they are as many as its head tells, or nothing.
local function unit_fault(number, shown)
    if shown.reason then return ("a message of it cannot be read: %s"):format(shown.reason) end
    if number == 0 then return "it tells of no message" end
    if number ~= shown.count then return ("it tells of %d messages and has %d"):format(number, shown.count) end
end

-- Shows the unit that stands from `at` up to `to`. Answers how many messages it has, the first in words, and, where it
-- is bad, what is told of it.
local function show_unit(tree, tvb, at, to, pinfo)
    local item = tree:add(units, tvb(at, to - at))
    local number = part_at(tvb, at, IN_UNIT_HEAD.messages)
    item:set_text(("Unit: %d messages, %d bytes"):format(number:uint(), to - at - UNIT_HEAD))
    local number_item = item:add(unit_field.messages, number)
    item:add(unit_field.length, part_at(tvb, at, IN_UNIT_HEAD.length))
    local shown = show_messages(item, tvb, at + UNIT_HEAD, to, pinfo)
    if shown.reason then show_bad_message(item, tvb(shown.to, to - shown.to), shown.to, shown.reason) end
    local fault = unit_fault(number:uint(), shown)
    local text = fault and ("bad unit at %d: %s"):format(at, fault)
    if text then number_item:add_proto_expert_info(unit_told.bad, text) end
    return shown.count, shown.first, text
end

-- Shows what stands after the units of a packet, and answers what is told of it. It is no fault of a unit that bytes
-- are missing which the capture did not keep.
local function show_part_of_unit(tree, tvb, at)
    local item = tree:add(units, tvb(at, tvb:captured_len() - at))
    local is_cut = tvb:captured_len() < tvb:reported_len()
    local text = (is_cut and "unit at %d cut by the capture" or "bad unit at %d: it ends too soon"):format(at)
    item:set_text("Unit: " .. text)
    item:add_proto_expert_info(is_cut and unit_told.cut or unit_told.bad, text)
    return text
end

local function show_units(tvb, pinfo, tree)
    local at, to, number, count = 0, tvb:captured_len(), 0, 0
    local first, fault
    while at < to do
        local bytes = unit_bytes(tvb, at)
        if not bytes or to - at < bytes then break end
        local messages_of_it, first_of_it, fault_of_it = show_unit(tree, tvb, at, at + bytes, pinfo)
        number, count, at = number + 1, count + messages_of_it, at + bytes
        first, fault = first or first_of_it, fault or fault_of_it
    end
    local fault_of_rest = at < tvb:reported_len() and show_part_of_unit(tree, tvb, at)
    fault = fault or fault_of_rest
    pinfo.cols.protocol = "IDS unit"
    pinfo.cols.info = ("units %d messages %d: %s"):format(number, count, words_of(count, first, fault))
    return to
end

function units.dissector(tvb, pinfo, tree)
    if pinfo.can_desegment == 0 then return show_units(tvb, pinfo, tree) end
    -- a stream: each unit is handed on alone, once all of it has come
    dissect_tcp_pdus(tvb, tree, UNIT_HEAD, function(stream, _, at) return unit_bytes(stream, at) end, show_units)
    return tvb:captured_len()
end

-- ---- Where they are looked for

messages.prefs.link = Pref.bool("Take link type USER0 (147)", true, "A capture whose packets are messages")
messages.prefs.udp = Pref.range("UDP ports", "", "Datagrams of messages", 65535)
messages.prefs.key = Pref.string("Key", "", "Of the seals, 1 to 64 bytes in hexadecimal; with none no tag is checked")
messages.prefs.follow = Pref.bool("Follow counters", true, "Tell a counter of a seal that is not the next one")
units.prefs.link = Pref.bool("Take link type USER1 (148)", true, "A capture whose packets are units")
units.prefs.udp = Pref.range("UDP ports", "", "Datagrams of units", 65535)
units.prefs.tcp = Pref.range("TCP ports", "", "Streams of units", 65535)

local links, udp, tcp = DissectorTable.get("wtap_encap"), DissectorTable.get("udp.port"), DissectorTable.get("tcp.port")

-- Who takes the link types without this file, by the user's own table of them.
local takers_before = { [wtap.USER0] = links:get_dissector(wtap.USER0), [wtap.USER1] = links:get_dissector(wtap.USER1) }

-- The places that the preferences name.
local function wanted_places()
    local places = {}
    local function want(is_wanted, where, pattern, proto)
        if is_wanted then places[#places + 1] = { where = where, pattern = pattern, proto = proto } end
    end
    want(messages.prefs.link, links, wtap.USER0, messages)
    want(messages.prefs.udp ~= "", udp, messages.prefs.udp, messages)
    want(units.prefs.link, links, wtap.USER1, units)
    want(units.prefs.udp ~= "", udp, units.prefs.udp, units)
    want(units.prefs.tcp ~= "", tcp, units.prefs.tcp, units)
    return places
end

local taken = {}

-- Takes the places that the preferences name now, in place of those that they named before.
local function take_places()
    for _, it in ipairs(taken) do
        it.where:remove(it.pattern, it.proto)
        local before = it.where == links and takers_before[it.pattern]
        if before then links:add(it.pattern, before) end
    end
    taken = wanted_places()
    for _, it in ipairs(taken) do it.where:add(it.pattern, it.proto) end
end

local function preferences_changed()
    take_key(messages.prefs.key)
    take_places()
end

messages.prefs_changed, units.prefs_changed = preferences_changed, preferences_changed
preferences_changed()
udp:add_for_decode_as(messages)
udp:add_for_decode_as(units)
tcp:add_for_decode_as(units)
