<?php
// Laravel's database: its mapper over each table, with the defaults of a new application.
require 'Illuminate/Database/autoload.php';
require __DIR__ . '/steps.php';

[, $port, $user, $password, $database] = $argv;
$manager = new Illuminate\Database\Capsule\Manager;
$manager->addConnection(['driver' => 'mysql', 'host' => '127.0.0.1', 'port' => $port, 'database' => $database, 'username' => $user, 'password' => $password,
    'charset' => 'utf8mb4', 'collation' => 'utf8mb4_unicode_ci', 'prefix' => '', 'strict' => true]);
$manager->bootEloquent();

class Note extends Illuminate\Database\Eloquent\Model {
    protected $table = 'note';
    public $incrementing = false, $timestamps = false;
    protected $guarded = [];
}

class Tag extends Illuminate\Database\Eloquent\Model {
    protected $table = 'tag';
    public $timestamps = false;
}

function read(int $key) {
    $note = Note::findOrFail($key);
    return [$note->title, $note->body, $note->stars];
}

function change() {
    $note = Note::findOrFail(2);
    $note->stars = 9;
    $note->save();
}

function roll_back($connection) {
    $connection->beginTransaction();
    Note::where('id', 1)->update(['stars' => 100]);
    $connection->rollBack();
    return [Note::findOrFail(1)->stars];
}

step('connect', fn() => $manager->getConnection()->getPdo());
step('read', fn() => read(1));
step('create', fn() => Note::create(['id' => 50, 'title' => 'Jam', 'body' => "it's \\ sweet", 'stars' => 3]));
step('created', fn() => read(50));
step('change', fn() => change());
step('delete', fn() => Note::findOrFail(3)->delete());
step('page', fn() => Tag::orderBy('name')->skip(1)->take(2)->get()->pluck('name')->all());
step('count', fn() => [Tag::count()]);
step('all', fn() => [Note::where('stars', '>=', 1)->count()]);
step('roll back', fn() => roll_back($manager->getConnection()));
