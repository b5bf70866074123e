<?php
namespace Shop\Text;

function initial($name)
{
    return $name{0};
}

function price($cents)
{
    $rest = $cents % 100;
    $whole = ($cents - $rest) / 100;
    return "${whole}." . ($rest < 10 ? "0${rest}" : $rest) . ' ' . \Shop\CURRENCY;
}

function padded($text, $width)
{
    return\str_repeat(' ', $width - \strlen($text)) . $text;
}
