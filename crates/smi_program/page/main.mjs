// The page of a screen.

import "./keys.mjs";
import "./contact.mjs";
