<h1><?= $cart->title() ?></h1>
<p class="<?= $size ?>">
<?php foreach ($cart->lines() as $line): ?>
  <?= \Shop\Text \padded($line->name, 8), ' ', \Shop\Text\price($line->cents) ?>

<?php endforeach; ?>
</p>
