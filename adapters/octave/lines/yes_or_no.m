% A line of a session has no input.
function varargout = yes_or_no (varargin)
  error ("a line has no input of its own\n");
end
