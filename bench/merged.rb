# Has KLayout read the CIF `input` and save it as the CIF `output`. Where `merge` is 1 the shapes of each layer of the main level are merged
# into polygons first; else each of its boxes becomes a polygon of its own. Run by klayout.py.
layout = RBA::Layout::new(true)
layout.read($input)
top = layout.cell("CIF_TOP")

# KLayout rounds the centre of a box to its unit, so a box is saved as one only where its centre lies on a unit.
def centred?(box)
  (box.left + box.right).even? && (box.bottom + box.top).even?
end

def put(shapes, polygon, boxes)
  if boxes && polygon.is_box? && centred?(polygon.bbox)
    shapes.insert(polygon.bbox)
  else
    shapes.insert(polygon)
  end
end

points = 0
if top
  layout.layer_indexes.each do |layer|
    shapes = top.shapes(layer)
    region = RBA::Region::new(shapes)
    region.merged_semantics = false
    region.merge if $merge == "1"
    polygons = region.each.to_a
    shapes.clear
    polygons.each do |polygon|
      points = [points, polygon.num_points].max
      put(shapes, polygon, $merge == "1")
    end
  end
end
options = RBA::SaveLayoutOptions.new
options.format = "CIF"
layout.write($output, options)
puts "points #{points}"
