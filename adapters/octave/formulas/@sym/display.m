% Shows a symbolic value as a formula, between two marks that `prompted.py octave --latex` knows.
function display (value)
  mark = getenv ("TMHOST_FORMULA");
  name = strrep (inputname (1, false), "_", "\\_");
  if (! isempty (name))
    name = ["\\mathrm{" name "} = "];
  end
  disp ([mark name latex(value) mark]);
end
