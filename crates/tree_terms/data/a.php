<?php echo "a\n" . strlen($x["k"]), 'é';
