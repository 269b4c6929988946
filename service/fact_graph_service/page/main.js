// The page: it opens an engine, and shows an interview over it.

import { openEngine } from "./http_engine.js";
import { Interview } from "./interview.js";

try {
  await new Interview(await openEngine(), document.body).begin();
} catch (wrong) {
  console.error(wrong);
  document.body.textContent = "The page can't be reached now. Load it again in a while. / Ahora no se puede llegar a la página. Cárguela de nuevo dentro de un rato.";
}
