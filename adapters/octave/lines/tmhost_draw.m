% Writes the figures that are open to a folder, and closes them.
function tmhost_draw (folder)
  figures = sort (get (0, "children"));
  for k = 1:numel (figures)
    unwind_protect
      print (figures(k), "-dsvg", sprintf ("%s/%05d.svg", folder, k));
    unwind_protect_cleanup
      close (figures(k));
    end_unwind_protect
  end
end
