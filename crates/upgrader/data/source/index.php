<?php #[the shop's one page]
namespace Shop;

use Shop\Cart\{Cart, Line};
use function Shop\Text\price;

require __DIR__ . '/lib/Text.php';
require __DIR__ . '/lib/Cart.php';

$cart = new Cart('basket');
$cart->add(new Line('tea', 450, 2));
$cart->add(new Line('pot', 2390, 1));

$count = $cart->count();
$size = $count > 5 ? 'large' : $count > 1 ? 'small' : 'single';

include __DIR__ . '/templates/page.php';
