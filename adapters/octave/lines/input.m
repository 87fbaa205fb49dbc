% A line of a session has no input.
function varargout = input (varargin)
  error ("a line has no input of its own\n");
end
