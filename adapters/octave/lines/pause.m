% A pause of some seconds; a line of a session has no key that could end one without them.
function pause (varargin)
  if (nargin == 0 || isinf (varargin{1}))
    error ("a line has no input of its own\n");
  end
  builtin ("pause", varargin{:});
end
