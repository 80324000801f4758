-- What bench/peer.toml says, for tilemaker.
node_keys = { "amenity" }
way_keys = { "highway", "building", "landuse" }

function node_function(node)
  local amenity = node:Find("amenity")
  if amenity ~= "" then
    node:Layer("amenities", false)
    node:Attribute("amenity", amenity)
  end
end

function way_function(way)
  local highway = way:Find("highway")
  if highway ~= "" then
    way:Layer("roads", false)
    way:Attribute("highway", highway)
    if way:Find("name") ~= "" then way:Attribute("name", way:Find("name")) end
  end
  for _, key in ipairs({ "building", "landuse" }) do
    local value = way:Find(key)
    if value ~= "" and way:IsClosed() then
      way:Layer("areas", true)
      way:Attribute(key, value)
    end
  end
end
