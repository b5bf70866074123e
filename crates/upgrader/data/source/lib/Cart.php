<?php
namespace Shop\Cart;

use Shop\Text as T;

class Line
{
    public $name;
    public $cents;
    public $pieces;

    public function __construct($name, $cents, $pieces)
    {
        $this->name = $name;
        $this->cents = $cents;
        $this->pieces = $pieces;
    }

    public function weight()
    {
        return (real)$this->pieces;
    }
}

class Cart
{
    private $title;
    private $lines = [];

    public function __construct($title)
    {
        $this->title = $title;
    }

    public function add(Line $line)
    {
        $this->lines[] = $line;
    }

    public function count()
    {
        $sum = 0;
        foreach ($this->lines as $line) {
            $sum += $line->pieces;
        }
        return $sum;
    }

    public function title()
    {
        return T\initial($this->title) . '. ' . $this->title{0} . $this->count() + 0;
    }

    public function lines()
    {
        return $this->lines;
    }

    public function forget()
    {
        $old = (unset)$this->lines;
        $this->lines = [];
        return $old;
    }
}
