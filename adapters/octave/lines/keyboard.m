% A line of a session has no input.
function varargout = keyboard (varargin)
  error ("a line has no input of its own\n");
end
