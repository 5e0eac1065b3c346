-- A dissector of HNCP (RFC 7788) over UDP port 8231 (RFC 7788, section 3), for Wireshark and tshark:
--
--   tshark -X lua_script:tools/hncp.lua -r capture.pcap -V
--
-- A datagram is a list of TLVs (RFC 7787, section 7; RFC 7788, section 10). The text of each TLV is that of `hncp decode`
-- (docs/FORMATS.md), and so are the levels. An expert item marks what `hncp decode` refuses: a datagram that is no list of
-- TLVs (hncp.malformed), a TLV that decodes to no item (hncp.bad), and a Node State whose data have no lines (hncp.body).
-- What that text has not stands behind it in parentheses, and in fields of its own: the names of further types, user agents as
-- text, and IPv4-mapped prefixes and addresses as IPv4.

local hncp = Proto("hncp", "Home Networking Control Protocol")

local DEEPEST = 7 -- the last level whose TLVs have lines of their own; that of the datagram's own TLVs is 0

-- Of each type the name of its item and the fields that its value begins with, in order.
local LAYOUTS = {
  [1] = { "request-network" },
  [2] = { "request-node", "node" },
  [3] = { "node-endpoint", "node", "endpoint" },
  [4] = { "network-state", "hash" },
  [5] = { "node-state", "node", "number", "age", "hash" },
  [8] = { "peer", "node", "endpoint", "own" },
  [9] = { "keep-alive", "endpoint", "interval" },
  [32] = { "version", "reserved", "m", "p", "h", "l", "agent" },
  [33] = { "external" },
  [34] = { "delegated", "valid", "preferred", "prefix" },
  [35] = { "assigned", "endpoint", "priority", "prefix" },
  [36] = { "address", "endpoint", "address" },
}
-- How many bytes a field takes, if not 4. Of two fields in one byte the first takes none.
local SIZES = { hash = 8, address = 16, reserved = 2, m = 0, p = 1, h = 0, l = 1, priority = 1, agent = 0, prefix = 0 }

-- Types without an item: RFC 7787, section 8.3, and RFC 7788, section 10.
local NAMES = {
  [10] = "Trust-Verdict", [37] = "DHCPv4-Data", [38] = "DHCPv6-Data", [39] = "DNS-Delegated-Zone", [40] = "Domain-Name",
  [41] = "Node-Name", [42] = "Managed-PSK", [43] = "Prefix-Policy",
}
for kind, layout in pairs(LAYOUTS) do
  NAMES[kind] = layout[1]
end

local CAUSES = {
  "fixed fields or the bytes of a prefix are missing", "what follows the fields is no pad of zeros and list of TLVs",
  "a prefix length above 128, or a bit that is set past the prefix length", "a user agent that is not in UTF-8",
}
local FAULTS = {
  "one to three bytes are left, where type and length take four", "the length passes the end", "a pad byte is missing",
  "a pad byte is not zero",
}

local field = {
  tlv = ProtoField.string("hncp.tlv", "TLV"),
  kind = ProtoField.uint16("hncp.tlv.type", "Type", base.DEC, NAMES),
  length = ProtoField.uint16("hncp.tlv.length", "Length"),
  value = ProtoField.bytes("hncp.tlv.value", "Value"),
  padding = ProtoField.bytes("hncp.tlv.padding", "Padding"),
  subs = ProtoField.bytes("hncp.tlv.subs", "TLVs below the last level"),
  rest = ProtoField.bytes("hncp.rest", "No list of TLVs"),
  reserved = ProtoField.bytes("hncp.version.reserved", "Reserved"),
  node = ProtoField.uint32("hncp.node", "Node identifier", base.HEX),
  endpoint = ProtoField.uint32("hncp.endpoint", "Endpoint identifier"),
  own = ProtoField.uint32("hncp.peer.own", "Own endpoint identifier"),
  hash = ProtoField.bytes("hncp.hash", "Hash"),
  number = ProtoField.uint32("hncp.number", "Sequence number"),
  age = ProtoField.uint32("hncp.age", "Milliseconds since origination"),
  data = ProtoField.bytes("hncp.data", "Node data"),
  interval = ProtoField.uint32("hncp.interval", "Keep-alive interval (ms)"),
  m = ProtoField.uint8("hncp.version.m", "M (mDNS proxy)", base.DEC, nil, 0xf0),
  p = ProtoField.uint8("hncp.version.p", "P (prefix delegation)", base.DEC, nil, 0x0f),
  h = ProtoField.uint8("hncp.version.h", "H (host addresses)", base.DEC, nil, 0xf0),
  l = ProtoField.uint8("hncp.version.l", "L (IPv4 addresses)", base.DEC, nil, 0x0f),
  agent = ProtoField.bytes("hncp.version.agent", "User agent"),
  agent_text = ProtoField.string("hncp.version.agent.text", "User agent as text"),
  valid = ProtoField.uint32("hncp.delegated.valid", "Valid lifetime (s)"),
  preferred = ProtoField.uint32("hncp.delegated.preferred", "Preferred lifetime (s)"),
  priority = ProtoField.uint8("hncp.assigned.priority", "Priority", base.DEC, nil, 0x0f),
  prefix = ProtoField.string("hncp.prefix", "Prefix"),
  prefix_ipv4 = ProtoField.string("hncp.prefix.ipv4", "Prefix of IPv4"),
  address = ProtoField.ipv6("hncp.address", "Address"),
  address_ipv4 = ProtoField.ipv4("hncp.address.ipv4", "Address of IPv4"),
}
local list = {}
for _, each in pairs(field) do
  list[#list + 1] = each
end
hncp.fields = list

local expert_of = {
  malformed = ProtoExpert.new("hncp.malformed", "The datagram is no list of TLVs", expert.group.MALFORMED, expert.severity.ERROR),
  bad = ProtoExpert.new("hncp.bad", "The TLV decodes to no item", expert.group.MALFORMED, expert.severity.ERROR),
  body = ProtoExpert.new("hncp.body", "The node data have no lines", expert.group.MALFORMED, expert.severity.WARN),
  cut = ProtoExpert.new("hncp.cut", "The frame has only a part of the datagram", expert.group.UNDECODED, expert.severity.NOTE),
}
hncp.experts = { expert_of.malformed, expert_of.bad, expert_of.body, expert_of.cut }

local udp_length = Field.new("udp.length")
local UDP_HEADER = 8 -- bytes, which udp.length counts

local tvb, bytes -- the datagram that is dissected, and its bytes as a string

-- Places are counted from 0, and an end is the place after the last byte.
local function byte(at)
  return bytes:byte(at + 1)
end

local function number(at, size)
  local n = 0
  for i = at, at + size - 1 do
    n = n * 256 + byte(i)
  end
  return n
end

local function hex(from, to)
  return (bytes:sub(from + 1, to):gsub(".", function(c) return string.format("%02x", c:byte()) end))
end

local function padding(length)
  return (4 - length % 4) % 4
end

-- Why no TLV begins at a place, as its place and cause; or nothing.
local function fault_at(at, to)
  if to - at < 4 then
    return at, 1
  end
  local after = at + 4 + number(at + 2, 2)
  if after > to then
    return at, 2
  end
  for place = after, after + padding(after - at) - 1 do
    if place >= to then
      return place, 3
    elseif byte(place) ~= 0 then
      return place, 4
    end
  end
end

-- The place after the TLV that begins at a place.
local function next_tlv(at)
  local length = number(at + 2, 2)
  return at + 4 + length + padding(length)
end

-- The first fault of bytes as a list of TLVs, with the place where no TLV begins, or nothing.
local function first_fault(from, to)
  while from < to do
    local place, why = fault_at(from, to)
    if place then
      return place, why, from
    end
    from = next_tlv(from)
  end
end

-- Whether bytes are UTF-8 (RFC 3629): no byte too many, no surrogate, nothing above U+10FFFF.
local function is_utf8(from, to)
  while from < to do
    local first = byte(from)
    local more = first < 0x80 and 0 or first >= 0xc2 and first < 0xe0 and 1 or first >= 0xe0 and first < 0xf0 and 2
      or first >= 0xf0 and first < 0xf5 and 3
    if not more or from + more >= to then
      return false
    end
    for i = 1, more do
      local low = i == 1 and ({ [0xe0] = 0xa0, [0xf0] = 0x90 })[first] or 0x80
      local high = i == 1 and ({ [0xed] = 0x9f, [0xf4] = 0x8f })[first] or 0xbf
      if byte(from + i) < low or byte(from + i) > high then
        return false
      end
    end
    from = from + more + 1
  end
  return true
end

-- The text of an address of these bytes, as RFC 5952, section 4, has it; missing bytes are zeros.
local function address_text(from, to)
  local groups, best, best_length = {}, nil, 1
  for i = 0, 7 do
    local high, low = from + 2 * i, from + 2 * i + 1
    groups[i] = (high < to and byte(high) or 0) * 256 + (low < to and byte(low) or 0)
  end
  local start = 0
  for i = 0, 8 do
    if i == 8 or groups[i] ~= 0 then
      if i - start > best_length then
        best, best_length = start, i - start
      end
      start = i + 1
    end
  end
  local text, i = "", 0
  while i < 8 do
    if i == best then
      text, i = text .. "::", i + best_length
    else
      text = text .. ((text == "" or text:sub(-1) == ":") and "" or ":") .. string.format("%x", groups[i])
      i = i + 1
    end
  end
  return text
end

local function value_text(from, to)
  return from < to and hex(from, to) or "-"
end

local function size_of(which)
  return SIZES[which] or 4
end

-- How many bytes the prefix field at a place takes, or nothing and the cause why it is none.
local function prefix_size(at, to)
  local length = at < to and byte(at) or 0
  local size = 1 + math.floor((length + 7) / 8)
  if length > 128 then
    return nil, 3
  elseif to - at < size then
    return nil, 1
  elseif length % 8 > 0 and byte(at + size - 1) % 2 ^ (8 - length % 8) ~= 0 then
    return nil, 3
  end
  return size
end

-- The place after the fields of a value, and the place where what lies within begins; or nothing and the cause.
local function parts(layout, from, to)
  local at, last = from, layout[#layout]
  for i = 2, #layout do
    at = at + size_of(layout[i])
  end
  if at > to then
    return nil, 1
  elseif last == "prefix" then
    local size, why = prefix_size(at, to)
    if why then
      return nil, why
    end
    at = at + size
  elseif last == "agent" then
    if not is_utf8(at, to) then
      return nil, 4
    end
    return to, to
  end
  if at == to or layout[1] == "node-state" then
    return at, at
  end
  -- Sub-TLVs begin at a multiple of 4, after zeros (RFC 7787, section 7).
  local within = at + padding(at - from)
  for place = at, within - 1 do
    if place >= to or byte(place) ~= 0 then
      return nil, 2
    end
  end
  if first_fault(within, to) then
    return nil, 2
  end
  return at, within
end

-- What a line says of a field, and how many bytes it takes.
local function field_text(which, at, after)
  if which == "hash" then
    return hex(at, at + 8), 8
  elseif which == "node" then
    return string.format("%08x", number(at, 4)), 4
  elseif which == "address" then
    return address_text(at, at + 16), 16
  elseif which == "prefix" then
    return address_text(at + 1, after) .. "/" .. byte(at), after - at
  elseif which == "agent" then
    return value_text(at, after), after - at
  elseif which == "m" or which == "h" then
    return string.format("%d", math.floor(byte(at) / 16)), 1
  elseif which == "p" or which == "l" or which == "priority" then
    return string.format("%d", byte(at) % 16), 1
  end
  return string.format("%.0f", number(at, 4)), size_of(which)
end

-- The text of an item, and its fields: of each the name, the place, the bytes and the text.
local function item_of(layout, at, after)
  local text, fields = layout[1], {}
  for i = 2, #layout do
    local which = layout[i]
    local said, size = "", size_of(which)
    if which ~= "reserved" then
      said, size = field_text(which, at, after)
      text = text .. " " .. which .. "=" .. said
    end
    fields[#fields + 1] = { which = which, at = at, size = size, said = said }
    at = at + size_of(which)
  end
  return text, fields
end

-- Bytes as text; what is no printable ASCII, and no part of a longer character, is escaped.
local function readable(from, to)
  return (bytes:sub(from + 1, to):gsub("[%z\1-\31\127\"\\]", function(c) return string.format("\\x%02x", c:byte()) end))
end

-- The IPv4 address of a mapped one (RFC 4291, section 2.5.5.2), of which bytes may be missing at the end; or nothing.
local function ipv4_text(from, to)
  for i = 0, 11 do
    if from + i >= to or byte(from + i) ~= (i < 10 and 0 or 0xff) then
      return nil
    end
  end
  local parts = {}
  for i = 0, 3 do
    parts[#parts + 1] = string.format("%d", from + 12 + i < to and byte(from + 12 + i) or 0)
  end
  return table.concat(parts, ".")
end

-- Adds the fields of an item, and gives what a reader wants to know beside its text, or nothing.
local function add_fields(tree, fields)
  local beside
  for _, each in ipairs(fields) do
    local from, to = each.at, each.at + each.size
    if each.which == "prefix" then
      tree:add(field.prefix, tvb(from, each.size), each.said)
      local ipv4 = byte(from) >= 96 and ipv4_text(from + 1, to)
      if ipv4 then
        beside = ipv4 .. "/" .. string.format("%d", byte(from) - 96)
        tree:add(field.prefix_ipv4, tvb(from, each.size), beside)
      end
    elseif each.size > 0 then
      tree:add(field[each.which], tvb(from, each.size))
      if each.which == "agent" then
        beside = '"' .. readable(from, to) .. '"'
        tree:add(field.agent_text, tvb(from, each.size), readable(from, to))
      elseif each.which == "address" and ipv4_text(from, to) then
        beside = ipv4_text(from, to)
        tree:add(field.address_ipv4, tvb(from + 12, 4))
      end
    end
  end
  return beside
end

local function add_bytes(tree, which, from, to)
  if from < to then
    tree:add(field[which], tvb(from, to - from))
  end
end

local dissect_list

-- Adds the TLV at a place, with those within down to the deepest level, and gives the place after it.
local function dissect_tlv(tree, at, level)
  local kind, length, after = number(at, 2), number(at + 2, 2), next_tlv(at)
  local from, to = at + 4, at + 4 + length
  local layout = LAYOUTS[kind]
  local text, fields, why, within, rest = "other value=" .. value_text(from, to), {}, nil, to, "value"
  if layout then
    local fields_end, place = parts(layout, from, to)
    if fields_end then
      text, fields = item_of(layout, from, fields_end)
      within, rest = place, layout[1] == "node-state" and "data" or "subs"
    else
      why = place
      text = string.format("bad why=%d value=%s", why, value_text(from, to))
    end
  end
  local has_lines = within < to and level < DEEPEST and not first_fault(within, to)
  if within < to and not has_lines then
    text = text .. (rest == "data" and " body=" or " subs=") .. hex(within, to)
  end
  local node = tree:add(field.tlv, tvb(at, after - at), text)
  node:add(field.kind, tvb(at, 2))
  node:add(field.length, tvb(at + 2, 2))
  local beside = add_fields(node, fields) or not layout and NAMES[kind]
  node:set_text(text .. (beside and " (" .. beside .. ")" or ""))
  if has_lines then
    dissect_list(node, within, to, level + 1)
  else
    add_bytes(node, rest, rest == "value" and from or within, to)
  end
  add_bytes(node, "padding", to, after)
  if why then
    node:add_proto_expert_info(expert_of.bad, string.format("bad place=%d why=%d: %s", at, why, CAUSES[why]))
  elseif rest == "data" and within < to and not has_lines then
    local cause = level < DEEPEST and "the node data are no list of TLVs" or "the node data lie below the last level"
    node:add_proto_expert_info(expert_of.body, string.format("body place=%d: %s", at, cause))
  end
  return after
end

-- Adds the TLVs of a list.
function dissect_list(tree, from, to, level)
  while from < to do
    from = dissect_tlv(tree, from, level)
  end
end

-- The names of the datagram's TLVs, for the column of the packet list.
local function names_of(to)
  local names, at = {}, 0
  while at < to do
    local kind = number(at, 2)
    names[#names + 1] = NAMES[kind] or "other " .. kind
    at = next_tlv(at)
  end
  return table.concat(names, ", ")
end

function hncp.dissector(buffer, pinfo, root)
  tvb, bytes = buffer, buffer:raw()
  pinfo.cols.protocol = "HNCP"
  local tree = root:add(hncp, buffer())
  local lengths = { udp_length() }
  local length = #lengths > 0 and lengths[#lengths].value - UDP_HEADER or 0
  if buffer:len() < math.max(buffer:reported_len(), length) then
    tree:add_proto_expert_info(expert_of.cut)
    return
  end
  local place, why, start = first_fault(0, #bytes)
  dissect_list(tree, 0, start or #bytes, 0)
  pinfo.cols.info = place and "malformed" or names_of(#bytes)
  if place then
    add_bytes(tree, "rest", start, #bytes)
    tree:add_proto_expert_info(expert_of.malformed, string.format("malformed place=%d why=%d: %s", place, why, FAULTS[why]))
  end
end

DissectorTable.get("udp.port"):add(8231, hncp)
